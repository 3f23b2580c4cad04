//! The random stream is worth comparing on: every kind of answer and every shape is frequent, and
//! large phrases are there. A change of the draw that loses any of this fails here.

#[path = "common/bell_kinds.rs"]
mod bell_kinds;
#[path = "common/counts.rs"]
mod counts;
#[path = "common/rested_kinds.rs"]
mod rested_kinds;
#[path = "common/rested_verdicts.rs"]
mod rested_verdicts;
#[path = "common/shifted_kinds.rs"]
mod shifted_kinds;
#[path = "common/tally.rs"]
mod tally;
#[path = "common/was_10.rs"]
mod was_10;

use std::sync::LazyLock;

use bell_kinds::BellKinds;
use reference::check::{Check, HOST_WORDS, check, check_phrase};
use reference::draft::Draft;
use reference::note_order::file_was_10;
use reference::random::{
    CASES, CASES_PER_RESTED, CASES_PER_SHIFTED, CASES_PER_WIDEST, Case, Generator, SEED, TINY,
    case, damaged, draft, rested_case, shifted_case, small_rested, widest_case,
};
use reference::reading::{Phrase, Refusal, read};
use reference::walk::{Outcome, Walk, capacity, walk};
use rested_kinds::RestedKinds;
use rested_verdicts::RestedVerdicts;
use shifted_kinds::ShiftedKinds;
use tally::Tally;
use was_10::WasTen;

struct Seen {
    file: Vec<u8>,
    read: Result<Walked, Refusal>,
}

/// A phrase, walked in the table that is lent and in one like the host's.
struct Walked {
    phrase: Phrase,
    /// S of the lent table.
    room: u64,
    lent: Walk,
    host: Walk,
}

/// All of version 1 that is compared but the cases with calls at 0, for all tests.
static STREAM: LazyLock<Vec<Seen>> = LazyLock::new(|| {
    let cases = (0..CASES).map(|number| case(SEED, number));
    let widest = (0..CASES / CASES_PER_WIDEST).map(|number| widest_case(SEED, number));
    cases.chain(widest).map(see).collect()
});

fn see(case: Case) -> Seen {
    let read = read(&case.file).map(|phrase| Walked {
        room: capacity(&phrase, case.table_words),
        lent: walk(&phrase, case.table_words),
        host: walk(&phrase, HOST_WORDS),
        phrase,
    });
    Seen {
        file: case.file,
        read,
    }
}

fn walked() -> impl Iterator<Item = (&'static [u8], &'static Walked)> {
    let read = |seen: &'static Seen| Some((&seen.file[..], seen.read.as_ref().ok()?));
    STREAM.iter().filter_map(read)
}

fn is_accepted(walk: &Walk) -> bool {
    matches!(walk.outcome, Outcome::Accepted { .. })
}

#[test]
fn each_kind_of_answer_is_frequent() {
    let mut lent = Tally::default();
    let mut host = Tally::default();
    let mut was_10 = WasTen::default();
    for seen in STREAM.iter() {
        was_10.add(file_was_10(&seen.file));
        let check = |walk: fn(&Walked) -> &Walk| match &seen.read {
            Ok(walked) => walk(walked).clone().into(),
            Err(refusal) => Check::bare((*refusal).into()),
        };
        lent.add(check(|walked| &walked.lent).host_number());
        host.add(check(|walked| &walked.host).host_number());
    }
    lent.print("tables of many lengths");
    host.print("the host's table");
    was_10.print("of these");
    for kind in 0..=14 {
        assert!(lent.counts[kind] * 200 >= CASES, "kind {kind} is rare");
    }
    for kind in [0, 13, 14] {
        assert!(host.counts[kind] * 50 >= CASES, "kind {kind} is rare");
    }
    was_10.demand(CASES).unwrap();
}

#[test]
fn each_kind_of_answer_shift_and_key_is_frequent_in_version_2() {
    /// One byte more than a file of version 1.
    const LONGEST: usize = 1_823;

    let cases = CASES / CASES_PER_SHIFTED;
    let (mut kinds, mut was_10) = (ShiftedKinds::new(), WasTen::default());
    let mut longest = 0;
    for number in 0..cases {
        let Case { file, table_words } = shifted_case(SEED, number);
        let answer = check(&file, table_words).host_number();
        kinds.add(&file, answer);
        was_10.add(file_was_10(&file));
        longest += u64::from(answer == 0 && file.len() == LONGEST);
    }
    (kinds.answers).print("version 2 in tables of many lengths");
    kinds.print();
    was_10.print("of these");
    println!("{longest} of the longest files are accepted");
    for kind in (0..=14).chain([19]) {
        let often = kinds.answers.counts[kind] * 400 >= cases;
        assert!(often, "kind {kind} is rare");
    }
    kinds.demand_all(cases).unwrap();
    was_10.demand(cases).unwrap();
    assert!(longest >= 10);
}

#[test]
fn each_kind_of_answer_and_rest_is_frequent_in_version_3() {
    /// One byte more than a file of version 1, and the rests of 96 bells.
    const LONGEST: usize = 2_015;

    let cases = CASES / CASES_PER_RESTED;
    let (mut kinds, mut was_10) = (RestedKinds::new(), WasTen::default());
    let (mut verdicts, mut longest) = (RestedVerdicts::new(), 0);
    for number in 0..cases {
        let Case { file, table_words } = rested_case(SEED, number);
        let answer = check(&file, table_words).host_number();
        kinds.add(&file, answer);
        verdicts.add(&file, table_words);
        was_10.add(file_was_10(&file));
        longest += u64::from(answer == 0 && file.len() == LONGEST);
    }
    (kinds.answers).print("version 3 in tables of many lengths");
    kinds.print();
    verdicts.print();
    was_10.print("of these");
    println!("{longest} of the longest files are accepted");
    for kind in (0..=14).chain([19]) {
        let often = kinds.answers.counts[kind] * 400 >= cases;
        assert!(often, "kind {kind} is rare");
    }
    kinds.demand_all(cases).unwrap();
    verdicts.demand_all(cases).unwrap();
    was_10.demand(cases).unwrap();
    assert!(longest >= 10);
}

#[test]
fn accepted_phrases_have_all_shapes() {
    let mut by_strokes = [0; 65];
    let mut by_drivers = [0; 9];
    let (mut joined, mut doubled, mut waiting, mut branching) = (0, 0, 0, 0);
    let mut bells = BellKinds::new();
    for (file, Walked { phrase, host, .. }) in walked() {
        if !is_accepted(host) {
            continue;
        }
        bells.add(phrase);
        by_strokes[phrase.strokes.len()] += 1;
        by_drivers[phrase.drivers] += 1;
        joined += u64::from(host.edges > host.states - 1);
        branching += u64::from(host.peak > 10);
        waiting += u64::from(phrase.strokes.iter().any(|s| s.waits.len() > 2));
        let written: Vec<u8> = file[7..]
            .chunks(7)
            .take(phrase.bells.len())
            .map(|b| b[0])
            .collect();
        doubled += u64::from((1..written.len()).any(|b| written[..b].contains(&written[b])));
    }
    println!("by K: {by_strokes:?}\nby m: {by_drivers:?}");
    bells.print();
    println!(
        "joined {joined}, doubled {doubled}, waiting {waiting}, over 10 in a level {branching}"
    );
    assert!(by_strokes.iter().all(|&count| count > 0));
    assert!(by_drivers[1..].iter().all(|&count| count > 100));
    for count in [joined, doubled, waiting, branching] {
        assert!(count > 200);
    }
    bells.demand(20).unwrap();
}

#[test]
fn levels_have_hundreds_and_thousands_of_states() {
    for (states, due) in [(100, 30), (200, 15), (500, 5), (1_000, 3), (3_000, 1)] {
        let (mut exact, mut full) = (0, 0);
        for (_, Walked { room, lent, .. }) in walked() {
            if lent.peak > states {
                exact += u64::from(is_accepted(lent) && *room == lent.peak);
                full += u64::from(matches!(lent.outcome, Outcome::Full { .. }));
            }
        }
        println!("over {states} states: {exact} accepted with no room to spare, {full} full");
        assert!(exact >= due && full >= due, "over {states} states");
    }
}

#[test]
fn full_levels_and_late_strokes_go_up_to_the_last() {
    let (mut by_level, mut by_stroke) = ([0; 65], [0; 64]);
    for (_, Walked { lent, .. }) in walked() {
        match lent.outcome {
            Outcome::Full { level } => by_level[level] += 1,
            Outcome::Late { stroke, .. } => by_stroke[stroke] += 1,
            Outcome::Accepted { .. } => {}
        }
    }
    println!("13 by level: {by_level:?}\n14 by stroke: {by_stroke:?}");
    // Level K, 64 at most, is never full: a state of the level before has one stroke left to start.
    assert_eq!(by_level[64], 0);
    assert!(by_level[..64].iter().all(|&count| count > 0));
    assert!(by_level[55..64].iter().all(|&count| count >= 3));
    assert!(by_stroke.iter().all(|&count| count > 0));
    assert!(by_stroke[58..].iter().all(|&count| count >= 5));
}

#[test]
fn files_are_as_long_as_they_can_be() {
    /// 96 bells, and 64 notes that list four strokes each.
    const ALL_RECORDS: usize = 7 + 96 * 7 + 1 + 64 * 18;
    /// The first four notes have no four strokes before them.
    const LONGEST: usize = ALL_RECORDS - (4 + 3 + 2 + 1);
    const LONG: usize = 1_670;

    let (mut longest, mut accepted) = (0, 0);
    for (file, Walked { lent, .. }) in walked() {
        assert!(file.len() <= LONGEST);
        longest += u64::from(file.len() == LONGEST);
        accepted += u64::from(file.len() == LONGEST && is_accepted(lent));
    }
    println!("{longest} of the longest files are read, {accepted} of them accepted");
    assert!(longest >= 50 && accepted >= 20);

    let (mut by_number, mut far, mut too_long) = ([0; 20], 0, 0);
    for seen in STREAM.iter().filter(|seen| seen.file.len() > LONG) {
        if let Err(refusal) = seen.read {
            by_number[refusal.number as usize] += 1;
            far += u64::from(refusal.place > LONG as u64);
            too_long += u64::from(seen.file.len() >= ALL_RECORDS);
        }
    }
    println!("long files refused, by number: {by_number:?}; {far} at a place near their end");
    assert!(
        [3, 9, 10, 11, 12]
            .iter()
            .all(|&number| by_number[number] > 0)
    );
    assert!(far >= 10 && too_long > 0);
}

#[test]
fn most_strokes_on_most_drivers_are_frequent() {
    let most = |(_, walked): &(_, &'static Walked)| {
        walked.phrase.strokes.len() == 64 && walked.phrase.drivers == 8
    };
    let (mut accepted, mut full, mut late) = (0, 0, 0);
    for (_, Walked { lent, .. }) in walked().filter(most) {
        match lent.outcome {
            Outcome::Accepted { .. } => accepted += 1,
            Outcome::Full { .. } => full += 1,
            Outcome::Late { .. } => late += 1,
        }
    }
    println!("64 strokes on 8 drivers: accepted {accepted}, 13 {full}, 14 {late}");
    assert!(accepted >= 100 && full >= 100 && late >= 50);
}

#[test]
fn damage_at_a_limit_is_not_always_harm() {
    let mut random = Generator::new(SEED);
    let read_well = (0..2_000)
        .filter(|_| read(&damaged(&mut random)).is_ok())
        .count();
    assert!((100..1_000).contains(&read_well), "{read_well}");
}

#[test]
fn a_phrase_is_read_as_it_was_drawn() {
    let mut random = Generator::new(SEED);
    let mut shifted = 0;
    for _ in 0..500 {
        let draft = draft(&mut random, &TINY);
        assert_read_as_drawn(&draft);
        let shift = random.range(0, 48) as i8 - 24;
        if let Some(draft) = draft.shifted(shift) {
            assert_read_as_drawn(&draft);
            shifted += 1;
        }
        assert_read_as_drawn(&small_rested(&mut random));
    }
    assert!(shifted > 400, "{shifted}");
}

fn assert_read_as_drawn(draft: &Draft) {
    let phrase = read(&draft.bytes()).expect("drawn phrases are valid");
    let shift = i64::from(draft.shift.unwrap_or(0));
    assert_eq!(
        (phrase.version, phrase.shift),
        (draft.version.into(), shift)
    );
    assert_eq!(phrase.drivers, usize::from(draft.drivers));
    assert_eq!(phrase.bells.len(), draft.bells.len());
    assert_eq!(phrase.strokes.len(), draft.notes.len());
    for (number, (stroke, note)) in phrase.strokes.iter().zip(&draft.notes).enumerate() {
        let bell = &draft.bells[stroke.bell];
        let sounds = i64::from(bell.written) + i64::from(bell.transposition);
        assert_eq!((stroke.key, stroke.written), (sounds, note.key));
        assert_eq!(stroke.key, i64::from(note.key) + shift);
        assert_eq!(
            (stroke.call.low, stroke.call.high),
            (note.ra.into(), note.rb.into())
        );
        assert_eq!(
            (stroke.hold.low, stroke.hold.high),
            (bell.ca.into(), bell.cb.into())
        );
        assert_eq!(
            (stroke.due, stroke.rank),
            (note.due.into(), bell.rank.into())
        );
        let same_bell = (0..number)
            .rev()
            .find(|&i| phrase.strokes[i].bell == stroke.bell);
        let rest = u64::from(bell.rest.unwrap_or(0));
        for i in 0..64 {
            let awaited = note.waits.contains(&(i as u8)) || same_bell == Some(i);
            assert_eq!(stroke.waits.contains(&i), awaited);
            let due = if same_bell == Some(i) { rest } else { 0 };
            assert_eq!(stroke.rest_after(i), due);
        }
    }
    assert_eq!(check_phrase(&phrase, 99), check(&draft.bytes(), 99));
}
