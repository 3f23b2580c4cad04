//! What must hold of every answer, whatever the phrase.

use reference::check::{Answer, HOST_WORDS, check, check_phrase};
use reference::draft::{Draft, DraftNote};
use reference::events::by_events;
use reference::random::{
    self, Case, Generator, TINY, case, rested_case, scenario, shifted_case, small_rested,
};
use reference::reading::{Phrase, Stroke, read};
use reference::report::check_and_text;
use reference::writing::EditedPhrase;

const FULL: u64 = 13;

/// Cases of version 1 and of version 3.
fn cases(seed: u64, count: u64) -> impl Iterator<Item = Case> {
    let rested = (0..count / 2).map(move |number| rested_case(seed, number));
    (0..count)
        .map(move |number| case(seed, number))
        .chain(rested)
}

#[test]
fn accepted_ends_lie_where_they_must() {
    for case in cases(2, 5_000) {
        let Ok(phrase) = read(&case.file) else {
            continue;
        };
        let check = check_phrase(&phrase, HOST_WORDS);
        if !check.is_accepted() {
            continue;
        }
        for (i, stroke) in phrase.strokes.iter().enumerate() {
            let (ends, response) = (check.ends[i], check.responses[i]);
            assert!(ends.low >= stroke.call.low + stroke.hold.low);
            assert!(ends.high >= stroke.call.high + stroke.hold.high);
            assert!(ends.low <= ends.high && ends.high <= stroke.due);
            assert_eq!(response.low + stroke.call.low, ends.low);
            assert_eq!(response.high + stroke.call.low, ends.high);
            // No stroke can end before those it waits for, its rest and its own shortest hold.
            for &wait in &stroke.waits {
                let rested = check.ends[wait].low + stroke.rest_after(wait);
                assert!(ends.low >= rested + stroke.hold.low);
            }
        }
    }
}

#[test]
fn a_longer_table_changes_only_13() {
    for case in cases(3, 5_000) {
        let Ok(phrase) = read(&case.file) else {
            continue;
        };
        let shorter = check_phrase(&phrase, case.table_words);
        let longer = check_phrase(&phrase, 2 * case.table_words + 500);
        match shorter.answer {
            Answer::Refused {
                number: FULL,
                place,
            } => {
                if let Answer::Refused { place: later, .. } = longer.answer {
                    assert!(later >= place);
                }
            }
            _ => assert_eq!(shorter, longer),
        }
    }
}

#[test]
fn a_due_time_before_the_call_is_read_but_never_accepted() {
    let mut random = Generator::new(4);
    for _ in 0..500 {
        let mut draft = random::draft(&mut random, &TINY);
        let stroke = random.below(draft.notes.len() as u64) as usize;
        let note = &mut draft.notes[stroke];
        let waits = note.waits.clone();
        *note = DraftNote::new(note.key, note.ra + 1, note.rb + 1, note.ra, waits);
        let phrase = read(&draft.bytes()).expect("legal to read");
        let answer = check_phrase(&phrase, HOST_WORDS).answer;
        assert!(matches!(answer, Answer::Late { stroke: late, .. } if late == stroke));
    }
}

/// The strokes but for the keys as written, which nothing but the writer uses.
fn jobs(phrase: &Phrase) -> Vec<Stroke> {
    let mut strokes = phrase.strokes.clone();
    strokes.iter_mut().for_each(|stroke| stroke.written = 0);
    strokes
}

/// A draft of version 1 that the reader takes, with every shift for which its keys can be written: jobs, verdict and text
/// stay what they are. Gives the number of shifts.
fn assert_shifts_change_nothing(draft: &Draft, table_words: usize, shifts: &[i8]) -> u64 {
    let file = draft.bytes();
    let phrase = read(&file).expect("the draft is valid");
    let due = check_and_text(&file, table_words);
    let mut tried = 0;
    for &shift in shifts {
        let Some(shifted) = draft.clone().shifted(shift) else {
            continue;
        };
        tried += 1;
        let shifted_file = shifted.bytes();
        let shifted = read(&shifted_file).expect("the same bells are struck");
        assert_eq!((shifted.version, shifted.shift), (2, shift.into()));
        assert_eq!(shifted.bells, phrase.bells);
        assert_eq!(jobs(&shifted), jobs(&phrase));
        let found = check_and_text(&shifted_file, table_words);
        assert!(found == due, "shift {shift} of {draft:?}");
    }
    tried
}

#[test]
fn a_shift_that_the_keys_take_back_changes_no_job_verdict_or_text() {
    let all: Vec<i8> = (-24..=24).collect();
    let mut random = Generator::new(104);
    let mut tried = 0;
    for _ in 0..400 {
        let draft = random::draft(&mut random, &TINY);
        let draft = random::tuned(&mut random, draft);
        tried += assert_shifts_change_nothing(&draft, HOST_WORDS, &all);
    }
    println!("small phrases, each with up to 49 shifts: {tried}");
    assert!(tried > 400 * 40);

    let (mut phrases, mut tried) = (0, 0);
    for number in 0..2_000 {
        let case = case(104, number);
        let Ok(phrase) = read(&case.file) else {
            continue;
        };
        let draft = Draft::of(&EditedPhrase::from(&phrase)).expect("what was read fits");
        // Shift 0 beside another: the file of version 2 that differs least.
        let shift = random.range(0, 48) as i8 - 24;
        phrases += 1;
        tried += assert_shifts_change_nothing(&draft, case.table_words, &[0, shift]);
    }
    println!("phrases of all shapes: {phrases}, shifted {tried} times");
    assert!(phrases > 1_000 && tried * 2 > phrases * 3);
}

#[test]
fn bells_that_are_moved_by_the_shift_are_struck_by_the_same_notes() {
    let mut random = Generator::new(105);
    let (mut accepted, mut missing) = (0, 0);
    for _ in 0..2_000 {
        let draft = random::draft(&mut random, &TINY);
        let phrase = read(&draft.bytes()).expect("drawn phrases are valid");
        // The notes stay as they are written, on an instrument that sounds so much higher or lower.
        let shift = random.range(0, 48) as i8 - 24;
        let mut moved = draft.clone();
        (moved.version, moved.shift) = (2, Some(shift));
        for bell in &mut moved.bells {
            let sounding = i16::from(bell.written) + i16::from(bell.transposition);
            let sounding = (sounding + i16::from(shift)).clamp(0, 127);
            (bell.written, bell.transposition) = (sounding as u8, 0);
        }
        let Ok(moved) = read(&moved.bytes()) else {
            // A bell would sound below 12 or above 119.
            missing += 1;
            continue;
        };
        let (due, found) = (
            check_phrase(&phrase, HOST_WORDS),
            check_phrase(&moved, HOST_WORDS),
        );
        assert_eq!(found, due);
        accepted += u64::from(found.is_accepted());
        for (a, b) in phrase.strokes.iter().zip(&moved.strokes) {
            assert_eq!((b.key, b.bell), (a.key + i64::from(shift), a.bell));
            assert_eq!((&b.waits, b.written), (&a.waits, a.written));
        }
    }
    println!("moved with their bells: {accepted} accepted, {missing} with a bell out of range");
    assert!(accepted > 500 && missing > 100);
}

/// The draft of a phrase that was read.
fn drafted(phrase: &Phrase) -> Draft {
    Draft::of(&EditedPhrase::from(phrase)).expect("what was read fits its bytes")
}

#[test]
fn version_3_with_all_rests_0_has_the_answers_of_version_2() {
    let mut random = Generator::new(106);
    let (mut phrases, mut accepted) = (0, 0);
    for number in 0..2_000 {
        let case = shifted_case(106, number);
        let Ok(phrase) = read(&case.file) else {
            continue;
        };
        if phrase.version != 2 {
            continue;
        }
        let file = drafted(&phrase).rested(|| 0).bytes();
        let other = read(&file).expect("only rests are added");
        assert_eq!((other.version, other.shift), (3, phrase.shift));
        assert_eq!(other.bells, phrase.bells);
        assert_eq!(other.strokes, phrase.strokes);
        let due = check_and_text(&case.file, case.table_words);
        assert!(check_and_text(&file, case.table_words) == due, "{number}");
        let scenario = scenario(&mut random, &phrase);
        assert!(by_events(&other, &scenario) == by_events(&phrase, &scenario));
        phrases += 1;
        accepted += u64::from(due.0.is_accepted());
    }
    println!("with rests of 0: {phrases} phrases, {accepted} accepted");
    assert!(phrases > 1_000 && accepted > 300);
}

#[test]
fn a_rest_of_a_bell_that_is_struck_once_changes_nothing() {
    let mut random = Generator::new(107);
    let mut changed = 0;
    for number in 0..2_000 {
        let case = rested_case(107, number);
        let Ok(phrase) = read(&case.file) else {
            continue;
        };
        let mut draft = drafted(&phrase);
        for (number, bell) in draft.bells.iter_mut().enumerate() {
            if phrase.strokes.iter().filter(|s| s.bell == number).count() <= 1 {
                bell.rest = bell.rest.map(|_| random.range(0, 5_000) as u16);
            }
        }
        let file = draft.bytes();
        changed += u64::from(file != case.file);
        let due = check_and_text(&case.file, case.table_words);
        assert!(check_and_text(&file, case.table_words) == due, "{number}");
    }
    assert!(changed > 500, "{changed}");
}

/// Every note lists its bell's nearest earlier stroke as well, or none does, where it can be: nothing changes.
#[test]
fn a_predecessor_that_is_listed_too_changes_nothing() {
    let mut random = Generator::new(108);
    let (mut more, mut fewer) = (0, 0);
    for _ in 0..2_000 {
        let draft = small_rested(&mut random);
        let draft = random::tuned(&mut random, draft);
        let file = draft.bytes();
        let phrase = read(&file).expect("drawn phrases are valid");
        let due = check(&file, HOST_WORDS);
        for lists in [true, false] {
            let mut other = draft.clone();
            for (note, stroke) in other.notes.iter_mut().zip(&phrase.strokes) {
                let mut waits: Vec<u8> = stroke.waits.iter().map(|&wait| wait as u8).collect();
                waits.retain(|&wait| lists || stroke.nearest != Some(wait.into()));
                if waits.len() <= 4 {
                    *note = DraftNote::new(note.key, note.ra, note.rb, note.due, waits);
                }
            }
            let count = if lists { &mut more } else { &mut fewer };
            *count += u64::from(other != draft);
            assert_eq!(check(&other.bytes(), HOST_WORDS), due);
        }
    }
    assert!(more > 500 && fewer > 500, "{more} {fewer}");
}
