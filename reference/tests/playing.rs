//! Playings: runs worked by hand, both refusals in each way and their order, and the two ways to run held against each
//! other.

#[path = "common/counts.rs"]
mod counts;
#[path = "common/rested_kinds.rs"]
mod rested_kinds;
#[path = "common/rested_runs.rs"]
mod rested_runs;
#[path = "common/shifted_kinds.rs"]
mod shifted_kinds;
#[path = "common/tally.rs"]
mod tally;
#[path = "common/was_10.rs"]
mod was_10;

use std::array;

use reference::check::{HOST_WORDS, check};
use reference::dispatch::Scenario;
use reference::draft::{Draft, DraftBell, DraftNote, correct_count, playing_bytes};
use reference::events::by_events;
use reference::examples::*;
use reference::note_order::file_was_10;
use reference::playing::{Played, literally, play, play_by, read_playing};
use reference::random::{
    CASES, CASES_PER_RESTED, CASES_PER_SHIFTED, Generator, PlayedCase, SEED, longest, played_case,
    rested_played_case, scenario, shifted_played_case,
};
use reference::reading::{Phrase, Refusal, read};
use rested_kinds::RestedKinds;
use rested_runs::RestedRuns;
use shifted_kinds::ShiftedKinds;
use tally::Tally;
use was_10::WasTen;

/// P with stroke 0 called at 5: the version, a count of 12, then two strokes.
const P_PLAYING: [u8; 17] = [
    0x01, 0x00, 0x00, 0x00, 0x0C, //
    0x00, 0x00, 0x00, 0x05, 0x00, 0x02, //
    0x00, 0x00, 0x00, 0x00, 0x00, 0x04,
];

/// K = 0: the version and a count of 0.
const NO_STROKES: [u8; 5] = [0x01, 0x00, 0x00, 0x00, 0x00];

/// Call and hold for each stroke.
fn playing(strokes: &[(u64, u64)]) -> Vec<u8> {
    playing_bytes(&Scenario {
        calls: strokes.iter().map(|&(call, _)| call).collect(),
        holds: strokes.iter().map(|&(_, hold)| hold).collect(),
    })
}

/// Start and end for each stroke; the entries after them are zero.
fn played(strokes: &[(u64, u64)]) -> Played {
    let of = |number: usize| strokes.get(number).copied().unwrap_or_default();
    Played {
        starts: array::from_fn(|number| of(number).0),
        ends: array::from_fn(|number| of(number).1),
    }
}

/// Both ways to run have to give these starts and ends.
fn assert_played(file: &[u8], playing: &[u8], expected: &[(u64, u64)]) {
    assert_eq!(play(file, playing), Ok(played(expected)));
    assert_eq!(play_by(file, playing, by_events), Ok(played(expected)));
}

fn refused(file: &[u8], playing: &[u8]) -> Option<(u64, u64)> {
    play(file, playing)
        .err()
        .map(|Refusal { number, place }| (number, place))
}

const SEVENTEEN: Option<(u64, u64)> = Some((17, 0));

/// A phrase in which every call may be at 0 to 100 and every hold 1 to 100: the rank of each stroke, and its waits.
fn free(drivers: u8, strokes: &[(u8, &[u8])]) -> Vec<u8> {
    let strokes: Vec<Marked> = (strokes.iter())
        .map(|&(rank, waits)| (0, 100, 1, 100, rank, waits))
        .collect();
    marked(drivers, &strokes)
}

#[test]
fn p_is_played_as_worked_by_hand() {
    assert_played(&P, &P_PLAYING, &[(5, 7), (0, 4)]);
    assert_eq!(playing(&[(5, 2), (0, 4)]), P_PLAYING);
    assert_played(&P_SHIFTED, &P_PLAYING, &[(5, 7), (0, 4)]);
    assert_played(&p_lower(), &P_PLAYING, &[(5, 7), (0, 4)]);
    // Called at the same moment, stroke 0 goes first by rank; else it waits for the one driver, and may start in the
    // millisecond in which that is freed.
    for (call, expected) in [
        (0, [(0, 2), (2, 6)]),
        (1, [(4, 6), (0, 4)]),
        (3, [(4, 6), (0, 4)]),
        (4, [(4, 6), (0, 4)]),
        (5, [(5, 7), (0, 4)]),
    ] {
        assert_played(&P, &playing(&[(call, 2), (0, 4)]), &expected);
    }
}

#[test]
fn no_strokes_take_a_playing_of_5_bytes() {
    assert_played(&m8(), &NO_STROKES, &[]);
    for length in 0..5 {
        assert_eq!(refused(&m8(), &NO_STROKES[..length]), SEVENTEEN);
    }
    assert_eq!(refused(&m8(), &playing(&[(0, 1)])), SEVENTEEN);
    assert_eq!(refused(&P, &NO_STROKES), SEVENTEEN);
}

#[test]
fn rank_goes_before_number_and_number_decides_among_equals() {
    // Stroke 0 has the driver until 5; the others are called before that.
    let blocked = |ranks: [u8; 3]| {
        free(
            1,
            &[(0, &[]), (ranks[0], &[]), (ranks[1], &[]), (ranks[2], &[])],
        )
    };
    let calls = playing(&[(0, 5), (4, 2), (3, 3), (1, 4)]);
    for (ranks, expected) in [
        // The order of calls does not matter, only rank and then number.
        ([7, 7, 7], [(0, 5), (5, 7), (7, 10), (10, 14)]),
        ([9, 8, 7], [(0, 5), (12, 14), (9, 12), (5, 9)]),
        ([8, 8, 7], [(0, 5), (9, 11), (11, 14), (5, 9)]),
        ([255, 0, 255], [(0, 5), (8, 10), (5, 8), (10, 14)]),
    ] {
        assert_played(&blocked(ranks), &calls, &expected);
    }
    assert_played(&m7(), &playing(&[(0, 1), (0, 1)]), &[(0, 1), (1, 2)]);
}

#[test]
fn a_running_stroke_is_not_stopped_for_one_that_goes_before_it() {
    let file = free(1, &[(9, &[]), (0, &[])]);
    assert_played(&file, &playing(&[(0, 10), (1, 2)]), &[(0, 10), (10, 12)]);
    // A driver that is free is not kept for it either.
    assert_played(&file, &playing(&[(0, 1), (1, 2)]), &[(0, 1), (1, 3)]);
    assert_played(&file, &playing(&[(0, 10), (0, 2)]), &[(2, 12), (0, 2)]);
}

#[test]
fn strokes_wait_for_the_ends_of_others() {
    // M6: stroke 1 goes first by rank but waits for 0, and a less important stroke does not wait for it.
    for (hold, expected) in [
        (2, [(0, 2), (2, 3), (3, 5)]),
        // 1 starts in the millisecond in which 0 ends, 2 in that of its call.
        (3, [(0, 3), (3, 4), (3, 5)]),
        (4, [(0, 4), (4, 5), (3, 5)]),
    ] {
        assert_played(&m6(), &playing(&[(0, hold), (0, 1), (3, 2)]), &expected);
    }
    // All of several, the last of them decides; then a stroke that is called later still.
    let file = free(
        4,
        &[(0, &[]), (0, &[]), (0, &[]), (0, &[0, 1, 2]), (0, &[3])],
    );
    let calls = [(0, 3), (2, 6), (1, 4), (0, 10), (20, 1)];
    let expected = [(0, 3), (2, 8), (1, 5), (8, 18), (20, 21)];
    assert_played(&file, &playing(&calls), &expected);
    // A chain whose strokes start as soon as the one before ends, though the last was called first.
    let file = free(8, &[(3, &[]), (2, &[0]), (1, &[1]), (0, &[2])]);
    let calls = [(7, 1), (5, 2), (3, 3), (0, 4)];
    let expected = [(7, 8), (8, 10), (10, 13), (13, 17)];
    assert_played(&file, &playing(&calls), &expected);
}

#[test]
fn strokes_of_one_bell_wait_for_each_other() {
    let bell = |written| DraftBell {
        written,
        transposition: 0,
        ca: 1,
        cb: 9,
        rest: None,
        rank: 0,
    };
    let note = |key| DraftNote::new(key, 0, 9, 3_600_000, vec![]);
    let notes = vec![note(60), note(62), note(60), note(60)];
    let file = Draft::new(8, vec![bell(60), bell(62)], notes).bytes();
    // Strokes 2 and 3 are called first, but stroke 0 is the earlier one of their bell.
    let calls = [(4, 5), (0, 9), (0, 2), (0, 3)];
    let expected = [(4, 9), (0, 9), (9, 11), (11, 14)];
    assert_played(&file, &playing(&calls), &expected);
}

/// Free calls and holds, as in `free`: each bell's rest and rank, then each stroke's bell and listed waits.
fn free_rested(drivers: u8, bells: &[(u16, u8)], strokes: &[(u8, &[u8])]) -> Vec<u8> {
    let bells: Vec<RestedBell> = (bells.iter())
        .map(|&(rest, rank)| (1, 100, rest, rank))
        .collect();
    let strokes: Vec<RestedStroke> = (strokes.iter())
        .map(|&(bell, waits)| (bell, 0, 100, 3_600_000, waits))
        .collect();
    rested(drivers, &bells, &strokes).bytes()
}

#[test]
fn a_stroke_starts_when_its_bell_has_rested() {
    assert_played(&P_RESTED, &P_PLAYING, &[(5, 7), (0, 4)]);
    for rest in [0, 1, 7, 5_000] {
        let file = free_rested(2, &[(rest, 1)], &[(0, &[]), (0, &[]), (0, &[])]);
        let rest = u64::from(rest);
        // 0 at 4..9; 1 in the millisecond in which the bell has rested, and 2 as well.
        let (first, second) = (9 + rest, 9 + rest + 2 + rest);
        let expected = [(4, 9), (first, first + 2), (second, second + 3)];
        let calls = playing(&[(4, 5), (0, 2), (0, 3)]);
        assert_played(&file, &calls, &expected);
        // The same if predecessors are listed too, or strokes further back.
        let file = free_rested(2, &[(rest as u16, 1)], &[(0, &[]), (0, &[0]), (0, &[0, 1])]);
        assert_played(&file, &calls, &expected);
    }
    // Called when it has rested, or later.
    let file = free_rested(1, &[(7, 1)], &[(0, &[]), (0, &[])]);
    for (call, start) in [(11, 12), (12, 12), (13, 13), (100, 100)] {
        let expected = [(0, 5), (start, start + 1)];
        assert_played(&file, &playing(&[(0, 5), (call, 1)]), &expected);
    }
}

#[test]
fn a_bell_that_rests_keeps_no_driver_and_no_other_bell() {
    // Stroke 1 goes before stroke 2 but rests from 2 to 5; stroke 2 holds until 6 and is not stopped.
    let file = free_rested(1, &[(3, 1), (9, 2)], &[(0, &[]), (0, &[]), (1, &[])]);
    let calls = [(0, 2), (0, 2), (0, 4)];
    assert_played(&file, &playing(&calls), &[(0, 2), (6, 8), (2, 6)]);
    // Held for 3 only, it frees the driver when the rest is over; for 2, the driver waits for one millisecond.
    let calls = [(0, 2), (0, 2), (0, 3)];
    assert_played(&file, &playing(&calls), &[(0, 2), (5, 7), (2, 5)]);
    let calls = [(0, 2), (0, 2), (0, 2)];
    assert_played(&file, &playing(&calls), &[(0, 2), (5, 7), (2, 4)]);
    // A stroke of another bell that lists stroke 0 does not rest, whatever its own bell's rest is.
    let file = free_rested(2, &[(50, 1), (60, 2)], &[(0, &[]), (1, &[0]), (1, &[0])]);
    let calls = [(0, 2), (0, 3), (0, 4)];
    assert_played(&file, &playing(&calls), &[(0, 2), (2, 5), (65, 69)]);
}

#[test]
fn strokes_wait_for_those_of_the_bell_that_they_really_strike() {
    let bell = |written, rank| DraftBell {
        written,
        transposition: 0,
        ca: 1,
        cb: 9,
        rest: None,
        rank,
    };
    let note = |key| DraftNote::new(key, 0, 9, 3_600_000, vec![]);
    // As written, strokes 0 and 2 would be of bell 1 and stroke 1 of bell 2; shifted, they are of bells 0 and 1, and stroke 1
    // goes first.
    let bells = vec![bell(60, 3), bell(63, 2), bell(66, 9)];
    let mut draft = Draft::new(1, bells, vec![note(63), note(66), note(63)]);
    (draft.version, draft.shift) = (2, Some(-3));
    let phrase = read(&draft.bytes()).unwrap();
    let struck: Vec<_> = phrase.strokes.iter().map(|s| (s.bell, s.rank)).collect();
    assert_eq!(struck, [(0, 3), (1, 2), (0, 3)]);
    assert_eq!(phrase.strokes[2].waits, [0]);
    let calls = [(1, 5), (1, 4), (0, 2)];
    let expected = [(5, 10), (1, 5), (10, 12)];
    assert_played(&draft.bytes(), &playing(&calls), &expected);
}

#[test]
fn drivers_freed_in_one_millisecond_are_all_taken_in_it() {
    // Two drivers are freed at 6, for three that wait by then and one that is called at 6 and goes before them.
    let ranks = [0, 0, 5, 4, 4, 1];
    let strokes = ranks.map(|rank| (rank, &[][..]));
    let calls = [(0, 6), (2, 4), (3, 1), (4, 2), (5, 7), (6, 3)];
    let two = [(0, 6), (2, 6), (9, 10), (6, 8), (8, 15), (6, 9)];
    assert_played(&free(2, &strokes), &playing(&calls), &two);
    // With a third driver one stroke waits, with six none.
    let three = [(0, 6), (2, 6), (3, 4), (4, 6), (6, 13), (6, 9)];
    assert_played(&free(3, &strokes), &playing(&calls), &three);
    let six = [(0, 6), (2, 6), (3, 4), (4, 6), (5, 12), (6, 9)];
    assert_played(&free(6, &strokes), &playing(&calls), &six);
}

#[test]
fn a_phrase_that_the_check_refuses_is_played() {
    // M3: stroke 0 of P ends after its due time 6.
    let m3 = p_with(35, 6);
    assert_eq!(check(&m3, HOST_WORDS).host_number() >> 32, 14);
    assert_played(&m3, &P_PLAYING, &[(5, 7), (0, 4)]);
    // Due before its call.
    let due_first = Draft::new(
        1,
        vec![DraftBell {
            written: 60,
            transposition: 0,
            ca: 2,
            cb: 2,
            rest: None,
            rank: 0,
        }],
        vec![DraftNote::new(60, 8, 9, 1, vec![])],
    );
    assert_played(&due_first.bytes(), &playing(&[(9, 2)]), &[(9, 11)]);
    // More states than the host's table takes; all at once, strokes go by number.
    let (counts, words) = NEAR_HOST_WORDS[1];
    assert!(words > HOST_WORDS);
    let file = in_any_order(&counts);
    assert_eq!(check(&file, HOST_WORDS).host_number() >> 32, 13);
    let count: usize = counts.iter().sum();
    let expected: Vec<(u64, u64)> = (0..count as u64).map(|n| (n, n + 1)).collect();
    assert_played(&file, &playing(&vec![(0, 1); count]), &expected);
}

#[test]
fn the_longest_run_ends_after_its_last_call_by_all_holds() {
    // 64 strokes of one bell, all called as late as can be, each held as long as can be.
    let bell = DraftBell {
        written: 60,
        transposition: 0,
        ca: 1,
        cb: 5_000,
        rest: None,
        rank: 255,
    };
    let notes = vec![DraftNote::new(60, 0, 3_600_000, 3_600_000, vec![]); 64];
    let file = Draft::new(8, vec![bell], notes).bytes();
    let start = |number: u64| 3_600_000 + 5_000 * number;
    let expected: Vec<(u64, u64)> = (0..64).map(|n| (start(n), start(n + 1))).collect();
    assert_eq!(expected[63].1, 3_920_000);
    assert_played(&file, &playing(&[(3_600_000, 5_000); 64]), &expected);
}

#[test]
fn the_longest_run_with_rests_ends_later_by_all_of_them() {
    let strokes: [RestedStroke; 64] = [(0, 0, 3_600_000, 3_600_000, &[]); 64];
    let file = rested(8, &[(1, 5_000, 5_000, 255)], &strokes).bytes();
    let start = |number: u64| 3_600_000 + 10_000 * number;
    let expected: Vec<(u64, u64)> = (0..64).map(|n| (start(n), start(n) + 5_000)).collect();
    assert_eq!(expected[63].1, 4_235_000);
    assert_played(&file, &playing(&[(3_600_000, 5_000); 64]), &expected);
}

#[test]
fn a_playing_too_short_for_its_head_or_its_strokes_is_17() {
    for length in 0..P_PLAYING.len() {
        let mut cut = P_PLAYING[..length].to_vec();
        assert_eq!(refused(&P, &cut), SEVENTEEN, "{length}");
        correct_count(&mut cut, 0);
        assert_eq!(refused(&P, &cut), SEVENTEEN, "{length}, count right");
    }
}

#[test]
fn another_version_is_17() {
    for version in (0..=255).filter(|&version| version != 1) {
        let mut other = P_PLAYING;
        other[0] = version;
        assert_eq!(refused(&P, &other), SEVENTEEN, "{version}");
    }
}

#[test]
fn a_wrong_count_is_17() {
    for error in [
        1,
        u32::MAX,
        6,
        6u32.wrapping_neg(),
        256,
        65_536,
        1 << 24,
        1 << 31,
    ] {
        let mut other = P_PLAYING;
        correct_count(&mut other, error);
        assert_eq!(refused(&P, &other), SEVENTEEN, "{error}");
    }
    // The least important byte first.
    let mut turned = P_PLAYING;
    turned[1..5].reverse();
    assert_eq!(refused(&P, &turned), SEVENTEEN);
    // All of the playing, and the strokes.
    for count in [17, 2] {
        let mut other = P_PLAYING;
        other[4] = count;
        assert_eq!(refused(&P, &other), SEVENTEEN, "{count}");
    }
}

#[test]
fn another_number_of_strokes_is_17() {
    for strokes in [0, 1, 3, 4, 64, 65] {
        let other = playing(&vec![(0, 2); strokes]);
        assert_eq!(refused(&P, &other), SEVENTEEN, "{strokes}");
    }
    // Bytes that remain, counted or not.
    for rest in 1..=6 {
        let mut longer = P_PLAYING.to_vec();
        longer.resize(P_PLAYING.len() + rest, 0);
        assert_eq!(refused(&P, &longer), SEVENTEEN, "{rest}");
        correct_count(&mut longer, 0);
        assert_eq!(refused(&P, &longer), SEVENTEEN, "{rest}, count right");
    }
}

/// Three strokes with calls 10 to 20 and holds 300 to 400.
fn ranges() -> Vec<u8> {
    marked(2, &[(10, 20, 300, 400, 1, &[][..]); 3])
}

#[test]
fn a_value_out_of_its_range_is_18_with_its_stroke() {
    for stroke in 0..3 {
        let with = |value: (u64, u64)| {
            let mut strokes = [(10, 400), (20, 300), (15, 350)];
            strokes[stroke] = value;
            refused(&ranges(), &playing(&strokes))
        };
        for (call, hold) in [(10, 300), (20, 400), (10, 400), (20, 300), (11, 399)] {
            assert_eq!(with((call, hold)), None, "{call} {hold}");
        }
        let eighteen = Some((18, stroke as u64));
        // Also where a part of the bytes, or the two fields swapped, would be in range.
        for call in [
            9,
            21,
            0,
            300,
            10 + 256,
            10 + 65_536,
            10 << 24,
            3_600_001,
            u32::MAX.into(),
        ] {
            assert_eq!(with((call, 350)), eighteen, "{call}");
        }
        for hold in [299, 401, 0, 15, 350 & 0xFF, 350 + 256, 5_001, 65_535] {
            assert_eq!(with((15, hold)), eighteen, "{hold}");
        }
        assert_eq!(with((9, 401)), eighteen);
    }
    // The ranges of each stroke are its own.
    let file = marked(1, &[(0, 5, 1, 2, 1, &[]), (6, 9, 3, 4, 1, &[])]);
    assert_eq!(refused(&file, &playing(&[(5, 2), (6, 3)])), None);
    assert_eq!(refused(&file, &playing(&[(6, 2), (6, 3)])), Some((18, 0)));
    assert_eq!(refused(&file, &playing(&[(5, 2), (5, 3)])), Some((18, 1)));
    assert_eq!(refused(&file, &playing(&[(5, 3), (6, 3)])), Some((18, 0)));
    assert_eq!(refused(&file, &playing(&[(5, 2), (6, 2)])), Some((18, 1)));
}

#[test]
fn the_smallest_stroke_out_of_range_is_named() {
    let good = (15, 350);
    for (strokes, first) in [
        ([(9, 350), (9, 350), (9, 350)], 0),
        ([good, (15, 401), (9, 350)], 1),
        // A call of a later stroke does not come before a hold of an earlier one.
        ([(15, 299), (9, 350), good], 0),
        ([(15, 299), good, (21, 350)], 0),
        ([good, good, (21, 299)], 2),
    ] {
        let found = refused(&ranges(), &playing(&strokes));
        assert_eq!(found, Some((18, first)), "{strokes:?}");
    }
}

#[test]
fn reading_refuses_first_then_17_then_18() {
    let out_of_range = playing(&[(6, 2), (1, 4)]);
    assert_eq!(refused(&P, &out_of_range), Some((18, 0)));
    let mut malformed = out_of_range.clone();
    malformed[0] = 2;
    assert_eq!(refused(&P, &malformed), SEVENTEEN);
    let too_many = playing(&[(6, 2), (0, 4), (0, 4)]);
    assert_eq!(refused(&P, &too_many), SEVENTEEN);
    // The table's examples of refusals of reading, whatever the playing.
    for (file, number, place) in [
        (vec![9], 1, 0),
        (vec![1, 0, 0], 2, 0),
        (vec![], 2, 0),
        (vec![1, 0, 0, 0, 1, 1], 3, 6),
        (vec![1, 0, 0, 0, 1, 0], 4, 5),
        (vec![1, 0, 0, 0, 2, 1, 0], 5, 6),
        (p_with(7, 0x0B), 6, 7),
        (p_with(15, 0xFE), 7, 14),
        (p_with(21, 0x41), 8, 21),
        (p_with(22, 0x0C), 9, 22),
        (p_with(37, 0x3E), 10, 36),
        (p_with(27, 0x06), 11, 22),
        (p_waiting_for_itself(), 12, 36),
    ]
    .into_iter()
    .chain(refused_of_version_2())
    .chain(refused_of_version_3())
    {
        for playing in [&P_PLAYING[..], &out_of_range, &malformed, &too_many, &[]] {
            assert_eq!(refused(&file, playing), Some((number, place)));
        }
    }
}

/// So late a last call, or so long rests, make the literal run slow.
const LONG: u64 = 5_000;

fn last_call_or_rest(phrase: &Phrase, scenario: &Scenario) -> u64 {
    let rests: u64 = phrase.strokes.iter().map(|stroke| stroke.rest).sum();
    scenario.calls.iter().copied().fold(rests, u64::max)
}

/// So many cases of a stream, with at most 20 long runs; gives how many runs were short and long.
fn assert_literal_runs(cases: u64, case: fn(u64, u64) -> PlayedCase) -> (u64, u64) {
    let (mut short, mut long) = (0, 0);
    for number in 0..cases {
        let case = case(SEED, number);
        let Ok(phrase) = read(&case.file) else {
            continue;
        };
        // Whatever the case's own playing is worth, others are in range.
        let mut random = Generator::of_case(!SEED, number);
        for _ in 0..4 {
            let scenario = scenario(&mut random, &phrase);
            assert_eq!(
                read_playing(&phrase, &playing_bytes(&scenario)).as_ref(),
                Ok(&scenario)
            );
            let seen = match last_call_or_rest(&phrase, &scenario) {
                0..LONG => &mut short,
                _ if long < 20 => &mut long,
                _ => continue,
            };
            *seen += 1;
            let due = literally(&phrase, &scenario);
            assert!(
                by_events(&phrase, &scenario) == due,
                "case {number}: {scenario:?}"
            );
        }
    }
    println!("runs that are the same: {short} short ones, {long} long ones");
    (short, long)
}

#[test]
fn time_that_jumps_gives_the_literal_run() {
    let (short, long) = assert_literal_runs(CASES, played_case);
    assert!(short > 20_000 && long == 20);
}

#[test]
fn time_that_jumps_gives_the_literal_run_with_rests() {
    let cases = CASES / CASES_PER_RESTED;
    let (short, long) = assert_literal_runs(cases, rested_played_case);
    assert!(short > 5_000 && long == 20);
}

#[test]
fn a_long_phrase_of_all_bells_and_waits_is_the_literal_run() {
    let mut random = Generator::new(SEED);
    let phrase = read(&longest(&mut random).bytes()).unwrap();
    let scenario = scenario(&mut random, &phrase);
    assert!(by_events(&phrase, &scenario) == literally(&phrase, &scenario));
}

/// Holds the draw to what it has to cover.
#[test]
fn each_kind_of_answer_is_frequent() {
    let (mut kinds, mut was_10) = (Tally::default(), WasTen::default());
    for number in 0..CASES {
        let case = played_case(SEED, number);
        was_10.add(file_was_10(&case.file));
        let answer = play_by(&case.file, &case.playing, by_events);
        kinds.add(answer.map_or_else(Refusal::host_number, |_| 0));
    }
    kinds.print("playings, by their answer");
    was_10.print("of these");
    for kind in (0..=12).chain([17, 18]) {
        assert!(kinds.counts[kind] * 400 >= CASES, "kind {kind} is rare");
    }
    for kind in [0, 17, 18] {
        assert!(kinds.counts[kind] * 10 >= CASES, "kind {kind} is rare");
    }
    was_10.demand(CASES).unwrap();
}

#[test]
fn each_kind_of_answer_is_frequent_in_version_2() {
    let cases = CASES / CASES_PER_SHIFTED;
    let (mut kinds, mut was_10) = (ShiftedKinds::new(), WasTen::default());
    for number in 0..cases {
        let case = shifted_played_case(SEED, number);
        was_10.add(file_was_10(&case.file));
        let answer = play_by(&case.file, &case.playing, by_events);
        let answer = answer.map_or_else(Refusal::host_number, |_| 0);
        kinds.add(&case.file, answer);
    }
    (kinds.answers).print("playings of version 2, by their answer");
    kinds.print();
    was_10.print("of these");
    for kind in (0..=12).chain([17, 18, 19]) {
        let often = kinds.answers.counts[kind] * 400 >= cases;
        assert!(often, "kind {kind} is rare");
    }
    kinds.demand_all(cases).unwrap();
    was_10.demand(cases).unwrap();
}

#[test]
fn each_kind_of_answer_and_rest_is_frequent_in_version_3() {
    let cases = CASES / CASES_PER_RESTED;
    let (mut kinds, mut runs) = (RestedKinds::new(), RestedRuns::new());
    let mut was_10 = WasTen::default();
    for number in 0..cases {
        let case = rested_played_case(SEED, number);
        was_10.add(file_was_10(&case.file));
        let answer = play_by(&case.file, &case.playing, by_events);
        if let (Ok(phrase), Ok(played)) = (read(&case.file), &answer) {
            let scenario = read_playing(&phrase, &case.playing).expect("it was run");
            runs.add(&phrase, &scenario, played);
        }
        let answer = answer.map_or_else(Refusal::host_number, |_| 0);
        kinds.add(&case.file, answer);
    }
    (kinds.answers).print("playings of version 3, by their answer");
    kinds.print();
    runs.print();
    was_10.print("of these");
    for kind in (0..=12).chain([17, 18, 19]) {
        let often = kinds.answers.counts[kind] * 400 >= cases;
        assert!(often, "kind {kind} is rare");
    }
    kinds.demand_all(cases).unwrap();
    runs.demand(cases).unwrap();
    was_10.demand(cases).unwrap();
}
