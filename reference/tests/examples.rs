//! Every example of document 01, P with a shift and with rests, and phrases in which rests decide.

use reference::check::{Answer, Check, HOST_WORDS, check};
use reference::examples::*;
use reference::range::Range;
use reference::report::report;

const BUFFER: usize = 32_768;

fn report_text(file: &[u8], table_words: usize) -> String {
    let mut buffer = vec![0xAA; BUFFER];
    let (answer, length) = report(file, table_words, &mut buffer);
    assert_eq!(answer, check(file, table_words));
    assert!(buffer[length..].iter().all(|&byte| byte == 0xAA));
    String::from_utf8(buffer[..length].to_vec()).unwrap()
}

fn assert_refused(file: &[u8], table_words: usize, number: u64, place: u64, line: &str) {
    let check = check(file, table_words);
    assert_eq!(check, Check::bare(Answer::Refused { number, place }));
    assert_eq!(check.host_number(), number << 32 | place);
    assert_eq!(report_text(file, table_words), line);
}

fn assert_accepted(file: &[u8], table_words: usize, ends: &[(u64, u64)], states: u64) {
    let check = check(file, table_words);
    assert_eq!(check.answer, Answer::Accepted);
    assert_eq!(check.host_number(), 0);
    assert_eq!(check.strokes, ends.len());
    assert_eq!(check.states, states);
    for (stroke, found) in check.ends.iter().enumerate() {
        let (low, high) = ends.get(stroke).copied().unwrap_or((0, 0));
        assert_eq!(*found, Range::new(low, high), "stroke {stroke}");
    }
    let unused = &check.responses[ends.len()..];
    assert!(unused.iter().all(|r| *r == Range::new(0, 0)));
}

#[test]
fn p_is_reported_to_the_byte() {
    assert_eq!(report_text(&P, HOST_WORDS), P_REPORT);
    assert_eq!(check(&P, HOST_WORDS).host_number(), 0);
}

#[test]
fn refusals_of_reading_have_their_places() {
    let examples: [(Vec<u8>, u64, u64); 15] = [
        (vec![0x09], 1, 0),
        (vec![0x01, 0, 0], 2, 0),
        (vec![], 2, 0),
        (p_with(4, 0x2E), 2, 0),
        (vec![0x01, 0, 0, 0, 1, 0x01], 3, 6),
        (vec![0x01, 0, 0, 0, 1, 0x00], 4, 5),
        (vec![0x01, 0, 0, 0, 2, 0x01, 0x00], 5, 6),
        (p_with(7, 0x0B), 6, 7),
        (p_with(15, 0xFE), 7, 14),
        (p_with(21, 0x41), 8, 21),
        (p_with(22, 0x0C), 9, 22),
        (p_with(37, 0x3E), 10, 36),
        (p_with(27, 0x06), 11, 22),
        (p_waiting_for_itself(), 12, 36),
        (p_with(21, 0x01), 3, 36),
    ];
    for (file, number, place) in examples {
        let line = format!("refused {number} at {place}\n");
        assert_refused(&file, HOST_WORDS, number, place, &line);
        // Refusals of reading come before 13.
        assert_refused(&file, 0, number, place, &line);
    }
}

#[test]
fn p_with_a_shift_is_reported_with_shifted_keys() {
    assert_eq!(report_text(&P_SHIFTED, HOST_WORDS), P_REPORT);
    assert_eq!(report_text(&p_lower(), HOST_WORDS), P_LOWER_REPORT);
    assert_accepted(&P_SHIFTED, 32, &[(2, 7), (4, 6)], 4);
    assert_refused(&P_SHIFTED, 31, 13, 1, "refused 13 level 1\n");
    // Stroke 0 due 6.
    let late = p_shifted_with(36, 0x06);
    let line = "refused 14 stroke 0 ends 6..7\n";
    assert_eq!(report_text(&late, HOST_WORDS), line);
}

#[test]
fn refusals_of_reading_have_their_places_in_version_2() {
    for (file, number, place) in refused_of_version_2() {
        let line = format!("refused {number} at {place}\n");
        assert_refused(&file, HOST_WORDS, number, place, &line);
        assert_refused(&file, 0, number, place, &line);
    }
}

#[test]
fn p_with_rests_is_reported_as_p() {
    assert_eq!(report_text(&P_RESTED, HOST_WORDS), P_REPORT);
    assert_accepted(&P_RESTED, 32, &[(2, 7), (4, 6)], 4);
    assert_refused(&P_RESTED, 31, 13, 1, "refused 13 level 1\n");
    // Stroke 0 due 6.
    let late = p_rested_with(&[(40, 0x06)]);
    let line = "refused 14 stroke 0 ends 6..7\n";
    assert_eq!(report_text(&late, HOST_WORDS), line);
}

#[test]
fn refusals_of_reading_have_their_places_in_version_3() {
    for (file, number, place) in refused_of_version_3() {
        let line = format!("refused {number} at {place}\n");
        assert_refused(&file, HOST_WORDS, number, place, &line);
        assert_refused(&file, 0, number, place, &line);
    }
}

#[test]
fn phrases_with_rests_have_their_ends_and_states() {
    for example in rested_examples() {
        println!("{}", example.name);
        let file = example.draft.bytes();
        assert_accepted(&file, HOST_WORDS, &example.ends, example.states);
    }
}

#[test]
fn a_rest_makes_a_stroke_late() {
    let late = Answer::Late {
        stroke: 1,
        ends: Range::new(7, 7),
    };
    assert_eq!(check(&late_by_a_rest(), HOST_WORDS), Check::bare(late));
    let line = "refused 14 stroke 1 ends 7..7\n";
    assert_eq!(report_text(&late_by_a_rest(), HOST_WORDS), line);
    // One millisecond less, and it is on time.
    let mut on_time = late_by_a_rest();
    assert_eq!(on_time[14..16], [0, 3]);
    on_time[15] = 2;
    assert_accepted(&on_time, HOST_WORDS, &[(2, 2), (6, 6)], 3);
}

/// Responses are counted from the call, and neither they nor availabilities have the rest in them: with two drivers, stroke 2
/// starts at 0 beside stroke 0, and the rest of bell 0 keeps no driver.
#[test]
fn rests_are_in_no_response_and_keep_no_driver() {
    let strokes: [RestedStroke; 4] = [
        (0, 1, 1, 3_600_000, &[]),
        (0, 2, 2, 3_600_000, &[]),
        (1, 0, 0, 3_600_000, &[]),
        (1, 3, 3, 3_600_000, &[]),
    ];
    // 2 at 0..3; 0 at 1..3; at 3 both drivers are free, and stroke 3 takes one of them; 1 has to rest until 3 + 9.
    let file = rested(2, &[(2, 2, 9, 1), (3, 3, 0, 2)], &strokes).bytes();
    assert_accepted(&file, HOST_WORDS, &[(3, 3), (14, 14), (3, 3), (6, 6)], 5);
    let responses = check(&file, HOST_WORDS).responses;
    let due = [(2, 2), (12, 12), (3, 3), (3, 3)].map(|(low, high)| Range::new(low, high));
    assert_eq!(responses[..4], due);
}

#[test]
fn p_with_31_words_is_full_at_level_1() {
    assert_refused(&P, 31, 13, 1, "refused 13 level 1\n");
}

#[test]
fn p_with_stroke_0_due_6_is_late() {
    let file = p_with(35, 0x06);
    let late = Answer::Late {
        stroke: 0,
        ends: Range::new(6, 7),
    };
    assert_eq!(check(&file, HOST_WORDS), Check::bare(late));
    assert_eq!(check(&file, HOST_WORDS).host_number(), 14 << 32);
    assert_eq!(
        report_text(&file, HOST_WORDS),
        "refused 14 stroke 0 ends 6..7\n"
    );
}

#[test]
fn a_short_buffer_gives_15_whatever_the_answer() {
    let too_short = Check::bare(Answer::Refused {
        number: 15,
        place: 0,
    });
    assert_eq!(too_short.host_number(), 15 << 32);
    let late = p_with(35, 0x06);
    for (file, words) in [(&P[..], 16_384), (&P[..], 31), (&late, 16_384), (&[], 0)] {
        let length = report_text(file, words).len();
        for buffer_length in [0, 10, length - 1] {
            let mut buffer = vec![0xAA; buffer_length];
            let answer = report(file, words, &mut buffer);
            assert_eq!(answer, (too_short.clone(), 0));
            assert!(buffer.iter().all(|&byte| byte == 0xAA));
        }
        let mut buffer = vec![0xAA; length];
        let (_, written) = report(file, words, &mut buffer);
        assert_eq!(written, length);
    }
}

#[test]
fn marked_phrases_have_their_ends_and_states() {
    assert_accepted(&m1(), HOST_WORDS, &[(1, 2), (4, 5)], 3);
    assert_accepted(&P, HOST_WORDS, &[(2, 7), (4, 6)], 4);
    assert_accepted(&P, 32, &[(2, 7), (4, 6)], 4);
    assert_accepted(&m5(), HOST_WORDS, &[(2, 2), (5, 5), (3, 5)], 4);
    assert_accepted(&m6(), HOST_WORDS, &[(2, 4), (3, 5), (5, 6)], 5);
    assert_accepted(&m7(), HOST_WORDS, &[(1, 1), (2, 2)], 3);
    assert_accepted(&m8(), HOST_WORDS, &[], 1);
}

#[test]
fn no_strokes_take_8_words() {
    assert_accepted(&m8(), 8, &[], 1);
    assert_eq!(
        report_text(&m8(), 8),
        "accepted strokes 0 states 1 hold 0\n"
    );
    assert_refused(&m8(), 7, 13, 0, "refused 13 level 0\n");
    assert_refused(&m8(), 0, 13, 0, "refused 13 level 0\n");
}

#[test]
fn one_word_less_than_a_phrase_takes_is_13() {
    for (counts, words) in NEAR_HOST_WORDS {
        let file = in_any_order(&counts);
        // At the earliest, as many as come before it on its bell have gone; at the latest, all before it.
        let on_bell = counts.iter().flat_map(|&count| 1..=count);
        let ends: Vec<(u64, u64)> = on_bell.map(|j| j as u64).zip(1_001..).collect();
        let states = counts.iter().map(|&count| count as u64 + 1).product();
        assert_accepted(&file, words, &ends, states);
        assert_refused(&file, words - 1, 13, 18, "refused 13 level 18\n");
    }
}
