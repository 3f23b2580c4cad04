//! The bells' lines of the report (request #108): texts worked by hand, lines recounted on random phrases, and how long a text
//! can be.

#[path = "common/bell_kinds.rs"]
mod bell_kinds;
#[path = "common/counts.rs"]
mod counts;

use std::fs;
use std::path::Path;

use bell_kinds::BellKinds;
use reference::check::{Answer, Check, HOST_WORDS, check};
use reference::draft::{Draft, DraftBell, DraftNote};
use reference::examples::*;
use reference::random::{Case, case, rested_case, shifted_case};
use reference::reading::{Phrase, read};
use reference::report::{check_and_text, length_without_bells, report};
use reference::struck::{longest_text, struck_examples};
use reference::walk::{walk, words_per_state};

fn text(file: &[u8]) -> String {
    check_and_text(file, HOST_WORDS).1
}

#[test]
fn texts_worked_by_hand_are_printed() {
    for example in struck_examples() {
        assert_eq!(
            text(&example.draft.bytes()),
            example.text,
            "{}",
            example.name
        );
    }
}

/// A text's bells' lines, as numbers: bell, strokes, hold. They stand between the strokes' lines and the last.
fn table(text: &str) -> Vec<[u64; 3]> {
    let lines: Vec<&str> = text.lines().collect();
    let (last, lines) = lines.split_last().expect("a text has a line");
    assert!(last.starts_with("accepted "), "{text}");
    let strokes = lines.iter().take_while(|line| line.starts_with("stroke "));
    let bells = &lines[strokes.count()..];
    bells.iter().map(|line| numbers(line)).collect()
}

/// The numbers of such a line, which has to be printed just so.
fn numbers(line: &str) -> [u64; 3] {
    let words: Vec<&str> = line.split(' ').collect();
    let &["bell", bell, "strokes", strokes, "hold", hold] = &words[..] else {
        panic!("no line of a bell: {line}");
    };
    [bell, strokes, hold].map(|word| {
        let number = word.parse().expect("a number");
        assert_eq!(word, u64::to_string(&number));
        number
    })
}

fn last_hold(text: &str) -> u64 {
    let (_, hold) = text.trim_end().rsplit_once(' ').expect("words");
    hold.parse().expect("the last line ends in a number")
}

#[test]
fn marked_phrases_and_those_with_rests_have_a_line_for_each_bell() {
    for (file, holds) in [
        (m1(), &[2, 3][..]),
        (P.to_vec(), &[2, 4]),
        (P_SHIFTED.to_vec(), &[2, 4]),
        (P_RESTED.to_vec(), &[2, 4]),
        (m5(), &[2, 5, 3]),
        (m6(), &[4, 1, 2]),
        (m7(), &[1, 1]),
        (m8(), &[]),
    ] {
        let due: Vec<[u64; 3]> = (0..).zip(holds).map(|(b, &hold)| [b, 1, hold]).collect();
        assert_eq!(table(&text(&file)), due);
    }
    let due: [&[[u64; 3]]; 8] = [
        &[[0, 2, 4]],
        &[[0, 2, 4]],
        &[[0, 2, 4], [1, 1, 4]],
        &[[0, 3, 3]],
        &[[0, 1, 2], [1, 1, 3]],
        &[[0, 2, 8], [1, 1, 3]],
        &[[0, 2, 8], [1, 1, 3]],
        &[[0, 2, 24], [1, 1, 3]],
    ];
    let examples = rested_examples();
    assert_eq!(examples.len(), due.len());
    for (example, due) in examples.iter().zip(due) {
        assert_eq!(
            table(&text(&example.draft.bytes())),
            due,
            "{}",
            example.name
        );
    }
}

/// The etude's bells hold for 60, 55, 50, 46, 46, 42, 40 and 36 at the longest, in all its forms.
#[test]
fn stored_texts_are_printed() {
    let etude = [
        [0, 4, 240],
        [1, 3, 165],
        [2, 4, 200],
        [3, 4, 184],
        [4, 2, 92],
        [5, 3, 126],
        [6, 1, 40],
        [7, 3, 108],
    ];
    let folder = Path::new(env!("CARGO_MANIFEST_DIR")).join("../examples");
    for (name, due) in [
        ("phrase-p", &[[0, 1, 2], [1, 1, 4]][..]),
        ("etude", &etude),
        ("etude-down", &etude),
        ("etude-heavy", &etude),
        ("clockwork", &etude),
    ] {
        let file = fs::read(folder.join(name).with_extension("phrase")).expect("a file");
        let stored = fs::read_to_string(folder.join(name).with_extension("report"));
        let stored = stored.expect("a text");
        assert_eq!(text(&file), stored, "{name}");
        assert_eq!(table(&stored), due, "{name}");
    }
}

/// 15 counts the bells' lines: where all others have room, and wherever a byte is missing.
#[test]
fn a_buffer_without_room_for_the_bells_is_too_short() {
    assert_eq!((P_REPORT.len(), length_without_bells(P_REPORT)), (189, 141));
    let (number, place) = (15, 0);
    let too_short = Check::bare(Answer::Refused { number, place });
    let examples = struck_examples();
    let mut files: Vec<Vec<u8>> = examples.iter().map(|e| e.draft.bytes()).collect();
    files.extend([P.to_vec(), P_SHIFTED.to_vec(), P_RESTED.to_vec()]);
    for file in files {
        let text = text(&file);
        let without = length_without_bells(&text);
        assert_eq!(without < text.len(), !table(&text).is_empty());
        for length in without.saturating_sub(2)..text.len() + 2 {
            let mut buffer = vec![0xAA; length];
            let (answer, written) = report(&file, HOST_WORDS, &mut buffer);
            if length < text.len() {
                assert_eq!((answer, written), (too_short.clone(), 0));
            } else {
                assert_eq!((answer, written), (check(&file, HOST_WORDS), text.len()));
                assert_eq!(buffer[..written], *text.as_bytes());
            }
            assert!(buffer[written..].iter().all(|&byte| byte == 0xAA));
        }
    }
}

/// Late, full or not read: one line, whatever the bells.
#[test]
fn refusals_have_no_lines_of_bells() {
    for example in struck_examples() {
        let mut draft = example.draft;
        assert_eq!(check_and_text(&draft.bytes(), 0).1, "refused 13 level 0\n");
        let Some(bell) = example.struck.last() else {
            continue;
        };
        let last = draft.notes.len() - 1;
        let ends = 100 * last as u32 + u32::from(draft.bells[*bell].ca);
        let latest = 100 * last as u32 + u32::from(draft.bells[*bell].cb);
        draft.notes[last].due = latest - 1;
        let line = format!("refused 14 stroke {last} ends {ends}..{latest}\n");
        assert_eq!(text(&draft.bytes()), line);
        draft.version = 9;
        assert_eq!(text(&draft.bytes()), "refused 1 at 0\n");
    }
}

/// A bell's line by its sounding key, without the bells that the reader has found for the strokes.
fn recounted(phrase: &Phrase) -> Vec<[u64; 3]> {
    let line = |(number, key, cb): (u64, i64, u64)| {
        let strokes = phrase.strokes.iter();
        let struck = strokes.filter(|stroke| i64::from(stroke.written) + phrase.shift == key);
        let count = struck.count() as u64;
        (count > 0).then_some([number, count, count * cb])
    };
    let bells = (0..).zip(&phrase.bells);
    let bells = bells.map(|(number, bell)| {
        let key = i64::from(bell.written) + i64::from(bell.transposition);
        (number, key, bell.hold.high)
    });
    bells.filter_map(line).collect()
}

#[test]
fn lines_of_accepted_phrases_add_up() {
    let version_1 = (0..4_000).map(|number| case(108, number));
    let version_2 = (0..2_000).map(|number| shifted_case(108, number));
    let version_3 = (0..2_000).map(|number| rested_case(108, number));
    let mut kinds = BellKinds::new();
    for Case { file, table_words } in version_1.chain(version_2).chain(version_3) {
        let (check, text) = check_and_text(&file, table_words);
        if check.is_accepted() {
            let phrase = read(&file).expect("it was accepted");
            assert_lines_add_up(&phrase, &text);
            kinds.add(&phrase);
        } else {
            assert_eq!(text.lines().count(), 1);
            assert_eq!(length_without_bells(&text), text.len());
        }
    }
    kinds.print();
    assert!(kinds.phrases > 1_500);
    kinds.demand(20).unwrap();
}

fn assert_lines_add_up(phrase: &Phrase, text: &str) {
    let found = table(text);
    assert_eq!(found, recounted(phrase));
    assert!(found.is_sorted_by(|a, b| a[0] < b[0]));
    assert!(found.iter().all(|[_, strokes, _]| *strokes >= 1));
    let strokes: u64 = found.iter().map(|line| line[1]).sum();
    assert_eq!(strokes, phrase.strokes.len() as u64);
    let lines = text.lines().count();
    assert_eq!(lines, phrase.strokes.len() + found.len() + 1);
    let hold: u64 = found.iter().map(|line| line[2]).sum();
    assert_eq!(last_hold(text), hold);
    let in_stroke_order = phrase.strokes.iter().fold(0, |sum, s| sum + s.hold.high);
    assert_eq!(hold, in_stroke_order);
}

/// All strokes on the last of the most bells, each as long as it can be.
#[test]
fn one_bell_has_as_many_strokes_and_as_long_holds_as_there_can_be() {
    let bells = (12..108).map(|written| DraftBell {
        written,
        transposition: 0,
        ca: 1,
        cb: 5_000,
        rest: None,
        rank: 0,
    });
    let notes = vec![DraftNote::new(107, 0, 0, 3_600_000, vec![]); 64];
    let text = text(&Draft::new(8, bells.collect(), notes).bytes());
    let lines: Vec<&str> = text.lines().collect();
    let due = [
        "stroke 63 key B7 bell 95 ends 64..320000 response 64..320000 due 3600000",
        "bell 95 strokes 64 hold 320000",
        "accepted strokes 64 states 65 hold 320000",
    ];
    assert_eq!(lines[63..], due);
}

/// Where every field of a text is as wide as its range lets it be, and the states are any number of 64 bits.
const BOUND: usize = 7_346;

#[test]
fn no_text_is_longer_than_the_sum_of_its_widest_lines() {
    let stroke = |number: u64| {
        let most = 3_600_000;
        format!(
            "stroke {number} key C#8 bell 95 ends {most}..{most} response {most}..{most} due {most}\n"
        )
    };
    let strokes: usize = (0..64).map(|number| stroke(number).len()).sum();
    assert_eq!(strokes, 10 * 85 + 54 * 86);

    // The widest lines for so many strokes, however they are shared out among bells: each on a bell of its own.
    let line = |strokes: usize| format!("bell 95 strokes {strokes} hold {}\n", 5_000 * strokes);
    let mut widest = vec![0];
    for all in 1..=64 {
        let of_one = |strokes: usize| widest[all - strokes] + line(strokes).len();
        widest.push((1..=all).map(of_one).max().unwrap_or(0));
    }
    assert_eq!(widest[64], 64 * 28);

    let last = format!("accepted strokes 64 states {} hold 320000\n", u64::MAX);
    assert_eq!(last.len(), 60);
    assert_eq!(strokes + widest[64] + last.len(), BOUND);
}

/// 19 keys of 64 have names of one letter, the best response of the first to go is at most 5000, and the states have 15 or 16
/// digits less than 20.
#[test]
fn the_longest_texts_have_7308_and_7309_bytes() {
    for (chains, states, peak, length) in [(2, 1_057, 32, 7_308), (3, 10_649, 363, 7_309)] {
        let file = longest_text(chains).bytes();
        let phrase = read(&file).unwrap();
        let words = (2 * words_per_state(&phrase) * peak) as usize;
        assert_eq!(walk(&phrase, words).peak, peak);
        let (check, text) = check_and_text(&file, words);
        assert_eq!((check.is_accepted(), check.states), (true, states));
        let digits = states.to_string().len();
        assert_eq!(text.len(), length);
        assert_eq!(length, BOUND - 19 - 3 - (20 - digits));
        assert_eq!(length_without_bells(&text), length - 64 * 28);
        // The first has all that the host's table takes.
        assert_eq!(words <= HOST_WORDS, chains == 2);
    }
}
