//! Every limit of reading, at it and just beyond it, and which refusal comes first.

use reference::draft::{Draft, DraftBell, DraftNote, correct_count};
use reference::examples::*;
use reference::reading::{Refusal, read};

/// Five bells and five notes, the third written key doubled; right in everything.
fn sound() -> Draft {
    let bells = [(40, 0), (60, -24), (60, 24), (12, 0), (119, 0)];
    let bells = bells.map(|(written, transposition)| DraftBell {
        written,
        transposition,
        ca: 1,
        cb: 5000,
        rest: None,
        rank: 255,
    });
    let notes = [40, 36, 84, 12, 119].map(|key| DraftNote::new(key, 5, 5, 3_600_000, vec![]));
    Draft::new(8, bells.to_vec(), notes.to_vec())
}

/// Where bell 2 and note 4 of it begin.
const BELL_2: u64 = 7 + 14;
const NOTE_4: u64 = 7 + 35 + 1 + 4 * 14;

fn answer(change: impl FnOnce(&mut Draft)) -> Option<(u64, u64)> {
    let mut draft = sound();
    change(&mut draft);
    refused(&draft.bytes())
}

fn refused(file: &[u8]) -> Option<(u64, u64)> {
    read(file)
        .err()
        .map(|Refusal { number, place }| (number, place))
}

#[test]
fn all_is_right_before_a_change() {
    let phrase = read(&sound().bytes()).unwrap();
    let bells: Vec<usize> = phrase.strokes.iter().map(|s| s.bell).collect();
    assert_eq!(bells, [0, 1, 2, 3, 4]);
}

#[test]
fn counts_have_their_limits() {
    for (drivers, expected) in [(0, Some((4, 5))), (1, None), (8, None), (9, Some((4, 5)))] {
        assert_eq!(answer(|d| d.drivers = drivers), expected);
    }
    assert_eq!(answer(|d| d.bell_count = 0), Some((5, 6)));
    let many_bells = |count: usize| {
        answer(|d| {
            let bell = d.bells[0].clone();
            d.bells = (12..)
                .take(count)
                .map(|key| DraftBell {
                    written: key,
                    ..bell.clone()
                })
                .collect();
            d.bell_count = count as u8;
            d.notes.iter_mut().for_each(|note| note.key = 12);
        })
    };
    assert_eq!(many_bells(1), None);
    assert_eq!(many_bells(96), None);
    assert_eq!(many_bells(97), Some((5, 6)));
    let many_notes = |count: usize| {
        answer(|d| {
            d.notes = vec![d.notes[0].clone(); count];
            d.stroke_count = count as u8;
        })
    };
    assert_eq!(many_notes(0), None);
    assert_eq!(many_notes(64), None);
    assert_eq!(many_notes(65), Some((8, 42)));
}

#[test]
fn bell_fields_have_their_limits() {
    let with = |written, transposition, ca, cb| {
        answer(|d| {
            d.bells[2] = DraftBell {
                written,
                transposition,
                ca,
                cb,
                rest: None,
                rank: 0,
            };
            // The bells at the limits would be in the way of the sounding keys tried here.
            d.bells[3].written = 70;
            d.bells[4].written = 71;
            d.bell_count = 5;
            d.stroke_count = 0;
            d.notes.clear();
        })
    };
    let six = Some((6, BELL_2));
    for (written, transposition, expected) in [
        (12, 0, None),
        (11, 0, six),
        (11, 1, six),
        (119, 0, None),
        (120, 0, six),
        (120, -1, six),
        (50, 24, None),
        (50, 25, six),
        (50, -24, None),
        (50, -25, six),
        (13, -1, None),
        (12, -1, six),
        (118, 1, None),
        (119, 1, six),
        (12, 127, six),
        (119, -128, six),
    ] {
        assert_eq!(
            with(written, transposition, 1, 1),
            expected,
            "{written} {transposition}"
        );
    }
    for (ca, cb, expected) in [
        (0, 5, six),
        (0, 0, six),
        (1, 1, None),
        (5, 4, six),
        (5000, 5000, None),
        (5000, 5001, six),
        (5001, 5001, six),
        (256, 255, six),
    ] {
        assert_eq!(with(50, 0, ca, cb), expected, "{ca} {cb}");
    }
    // 40 sounds already: by itself 7, but 6 comes first.
    assert_eq!(with(40, 0, 1, 1), Some((7, BELL_2)));
    assert_eq!(with(50, -10, 1, 1), Some((7, BELL_2)));
    assert_eq!(with(40, 0, 0, 1), six);
}

#[test]
fn note_fields_have_their_limits() {
    let with = |change: &dyn Fn(&mut DraftNote)| answer(|d| change(&mut d.notes[4]));
    for length in [0, 12, 18, 255] {
        assert_eq!(with(&|n| n.length = length), Some((9, NOTE_4)));
    }
    for length in 14..=17 {
        assert_eq!(with(&|n| n.length = length), Some((3, NOTE_4)));
    }
    // 60 is only written, 0 and 255 are no keys at all.
    for key in [0, 60, 118, 120, 255] {
        assert_eq!(with(&|n| n.key = key), Some((10, NOTE_4)));
    }
    for (ra, rb, due, expected) in [
        (0, 0, 0, None),
        (3_600_000, 3_600_000, 0, None),
        (3_600_000, 3_600_001, 0, Some((11, NOTE_4))),
        (3_600_001, 3_600_001, 0, Some((11, NOTE_4))),
        (1, 0, 9, Some((11, NOTE_4))),
        (0, 0, 3_600_000, None),
        (0, 0, 3_600_001, Some((11, NOTE_4))),
        (u32::MAX, u32::MAX, u32::MAX, Some((11, NOTE_4))),
    ] {
        let times = |n: &mut DraftNote| (n.ra, n.rb, n.due) = (ra, rb, due);
        assert_eq!(with(&times), expected, "{ra} {rb} {due}");
    }
    for (waits, expected) in [
        (vec![0, 1, 2, 3], None),
        (vec![3], None),
        (vec![4], Some((12, NOTE_4))),
        (vec![255], Some((12, NOTE_4))),
        (vec![1, 1], Some((12, NOTE_4))),
        (vec![2, 1], Some((12, NOTE_4))),
        (vec![0, 1, 2, 4], Some((12, NOTE_4))),
        (vec![0, 2, 1, 3], Some((12, NOTE_4))),
        (vec![0, 1, 2, 3, 4], Some((9, NOTE_4))),
    ] {
        let listed = |n: &mut DraftNote| {
            *n = DraftNote::new(n.key, n.ra, n.rb, n.due, waits.clone());
        };
        assert_eq!(with(&listed), expected, "{waits:?}");
    }
}

#[test]
fn the_first_rule_in_order_answers() {
    assert_eq!(
        answer(|d| (d.version, d.count_error) = (4, 1)),
        Some((1, 0))
    );
    assert_eq!(
        answer(|d| (d.count_error, d.drivers) = (1, 0)),
        Some((2, 0))
    );
    assert_eq!(answer(|d| (d.drivers, d.bell_count) = (0, 0)), Some((4, 5)));
    let note =
        |key, ra, waits: Vec<u8>| answer(|d| d.notes[4] = DraftNote::new(key, ra, 5, 9, waits));
    // Times, then the key, then what is listed.
    assert_eq!(note(118, 6, vec![4]), Some((11, NOTE_4)));
    assert_eq!(note(119, 6, vec![4]), Some((11, NOTE_4)));
    assert_eq!(note(118, 5, vec![4]), Some((10, NOTE_4)));
    assert_eq!(note(119, 5, vec![4]), Some((12, NOTE_4)));

    // A wrong length is 9 although the record also passes the end.
    let mut cut = sound().bytes();
    cut[NOTE_4 as usize] = 18;
    cut.truncate(NOTE_4 as usize + 1);
    correct_count(&mut cut, 0);
    assert_eq!(refused(&cut), Some((9, NOTE_4)));
    // A bell that passes the end is 3 although what is left of it is out of range.
    cut[BELL_2 as usize] = 0;
    cut.truncate(BELL_2 as usize + 6);
    correct_count(&mut cut, 0);
    assert_eq!(refused(&cut), Some((3, BELL_2)));
    // A note that passes the end is 3 although its key finds no bell.
    cut = sound().bytes();
    cut[NOTE_4 as usize + 1] = 0;
    cut.pop();
    correct_count(&mut cut, 0);
    assert_eq!(refused(&cut), Some((3, NOTE_4)));
}

#[test]
fn only_versions_1_to_3_are_read() {
    for version in 0..=255 {
        // 5 bytes, none of them the driver count.
        let expected = match version {
            1..=3 => Some((3, 5)),
            _ => Some((1, 0)),
        };
        assert_eq!(refused(&[version, 0, 0, 0, 0]), expected, "{version}");
        let expected = match version {
            1 => Some((5, 6)),
            2 => None,
            3 => Some((6, 17)),
            _ => Some((1, 0)),
        };
        assert_eq!(refused(&p_shifted_with(0, version)), expected, "{version}");
    }
}

/// The refusal of the same five bells and notes in version 2, shift 0, after a change.
fn answer_2(change: impl FnOnce(&mut Draft)) -> Option<(u64, u64)> {
    answer(|d| {
        (d.version, d.shift) = (2, Some(0));
        change(d);
    })
}

#[test]
fn the_shift_has_its_limits() {
    for byte in 0..=255 {
        let found = answer_2(|d| {
            d.shift = Some(byte as i8);
            d.stroke_count = 0;
            d.notes.clear();
        });
        // As a signed byte, 232 is -24.
        let expected = match byte {
            0..=24 | 232..=255 => None,
            _ => Some((19, 6)),
        };
        assert_eq!(found, expected, "{byte}");
    }
}

#[test]
fn a_key_and_a_shift_find_the_bell_of_their_sum() {
    let (mut above, mut below) = (0, 0);
    for shift in -24..=24 {
        for key in 0..=255 {
            let mut draft = sound();
            (draft.version, draft.shift) = (2, Some(shift));
            draft.stroke_count = 1;
            draft.notes = vec![DraftNote::new(key, 5, 5, 9, vec![])];
            let sum = i64::from(key) + i64::from(shift);
            let bell = [40, 36, 84, 12, 119].iter().position(|&k| k == sum);
            above += u64::from(key > 119 && bell.is_some());
            below += u64::from(key < 12 && bell.is_some());
            match read(&draft.bytes()) {
                Ok(phrase) => {
                    let stroke = &phrase.strokes[0];
                    assert_eq!(phrase.shift, i64::from(shift));
                    assert_eq!((stroke.written, stroke.key), (key, sum));
                    assert_eq!(Some(stroke.bell), bell);
                }
                Err(Refusal { number, place }) => {
                    assert_eq!((number, place), (10, 8 + 35 + 1));
                    assert_eq!(bell, None, "{key} {shift}");
                }
            }
        }
    }
    // 119 from 120 to 143, by shifts -1 to -24; 12 from 11 to 0, by shifts 1 to 12.
    assert_eq!((above, below), (24, 12));
}

#[test]
fn the_first_rule_in_order_answers_in_version_2() {
    let count_and_drivers = |d: &mut Draft| (d.count_error, d.drivers) = (1, 0);
    assert_eq!(answer_2(count_and_drivers), Some((2, 0)));
    for shift in [25, -25, 127, -128] {
        // 4, then 19, then 5.
        assert_eq!(
            answer_2(|d| (d.drivers, d.shift) = (0, Some(shift))),
            Some((4, 5))
        );
        assert_eq!(
            answer_2(|d| (d.shift, d.bell_count) = (Some(shift), 0)),
            Some((19, 6))
        );
        // 19 although the bell count passes the end.
        assert_eq!(
            refused(&[2, 0, 0, 0, 2, 1, shift as u8]),
            Some((19, 6)),
            "{shift}"
        );
    }
    // 4 although the shift passes the end.
    assert_eq!(refused(&[2, 0, 0, 0, 1, 9]), Some((4, 5)));
    assert_eq!(answer_2(|d| d.bell_count = 0), Some((5, 7)));
    assert_eq!(answer_2(|d| d.bell_count = 97), Some((5, 7)));

    // The records of version 2 have the order of version 1, one byte further on.
    let (bell_2, note_4) = (BELL_2 + 1, NOTE_4 + 1);
    assert_eq!(answer_2(|d| d.bells[2].ca = 0), Some((6, bell_2)));
    assert_eq!(answer_2(|d| d.bells[2].written = 12), Some((7, bell_2)));
    assert_eq!(answer_2(|d| d.stroke_count = 65), Some((8, 8 + 35)));
    assert_eq!(answer_2(|d| d.notes[4].length = 18), Some((9, note_4)));
    let note =
        |key, ra, waits: Vec<u8>| answer_2(|d| d.notes[4] = DraftNote::new(key, ra, 5, 9, waits));
    assert_eq!(note(118, 6, vec![4]), Some((11, note_4)));
    assert_eq!(note(119, 6, vec![4]), Some((11, note_4)));
    assert_eq!(note(118, 5, vec![4]), Some((10, note_4)));
    assert_eq!(note(119, 5, vec![4]), Some((12, note_4)));
    assert_eq!(answer_2(|d| d.remaining = vec![0]), Some((3, note_4 + 14)));
}

/// The same five bells and notes in version 3, shift 0 and rest 0, after a change.
fn answer_3(change: impl FnOnce(&mut Draft)) -> Option<(u64, u64)> {
    answer(|d| {
        *d = d.clone().rested(|| 0);
        change(d);
    })
}

#[test]
fn every_rest_up_to_5000_is_read() {
    for rest in 0..=65_535 {
        let found = answer_3(|d| d.bells[2].rest = Some(rest));
        let expected = (rest > 5_000).then_some((6, 8 + 2 * 9));
        assert_eq!(found, expected, "{rest}");
    }
    let rests = [0, 1, 255, 256, 5_000];
    let mut drawn = rests.into_iter();
    let draft = sound().rested(|| drawn.next().unwrap());
    let phrase = read(&draft.bytes()).unwrap();
    assert_eq!((phrase.version, phrase.shift), (3, 0));
    for (stroke, rest) in phrase.strokes.iter().zip(rests) {
        // The fields around the rest are what they are in other versions.
        let bell = &phrase.bells[stroke.bell];
        assert_eq!((bell.rest, stroke.rest), (rest.into(), rest.into()));
        assert_eq!((bell.hold.low, bell.hold.high, bell.rank), (1, 5_000, 255));
    }
    for version in [sound(), sound().shifted(0).unwrap()] {
        let phrase = read(&version.bytes()).unwrap();
        assert!(phrase.bells.iter().all(|bell| bell.rest == 0));
        assert!(phrase.strokes.iter().all(|stroke| stroke.rest == 0));
    }
}

#[test]
fn the_first_rule_in_order_answers_in_version_3() {
    assert_eq!(answer_3(|_| ()), None);
    assert_eq!(answer_3(|d| d.drivers = 0), Some((4, 5)));
    let shift_and_count = |d: &mut Draft| (d.shift, d.bell_count) = (Some(25), 0);
    assert_eq!(answer_3(shift_and_count), Some((19, 6)));
    assert_eq!(answer_3(|d| d.bell_count = 0), Some((5, 7)));

    // Bells of 9 bytes from 8 on. A rest is 6, as is any other field; 6 comes before 7 of its own bell and after 7 of one
    // before it.
    let (bell_2, bell_3) = (8 + 18, 8 + 27);
    for rest in [0, 5_000] {
        let doubled = answer_3(|d| (d.bells[2].written, d.bells[2].rest) = (12, Some(rest)));
        assert_eq!(doubled, Some((7, bell_2)));
    }
    let both = answer_3(|d| (d.bells[2].written, d.bells[2].rest) = (12, Some(5_001)));
    assert_eq!(both, Some((6, bell_2)));
    let two_bells = answer_3(|d| (d.bells[2].written, d.bells[3].rest) = (12, Some(5_001)));
    assert_eq!(two_bells, Some((7, bell_2)));
    assert_eq!(
        answer_3(|d| d.bells[3].rest = Some(5_001)),
        Some((6, bell_3))
    );
    let rest_and_hold = answer_3(|d| (d.bells[3].ca, d.bells[2].rest) = (0, Some(5_001)));
    assert_eq!(rest_and_hold, Some((6, bell_2)));

    // The stroke count and the notes follow.
    let (count, note_4) = (8 + 45, 8 + 45 + 1 + 4 * 14);
    let rest_and_count = answer_3(|d| (d.bells[4].rest, d.stroke_count) = (Some(5_001), 65));
    assert_eq!(rest_and_count, Some((6, 8 + 36)));
    assert_eq!(answer_3(|d| d.stroke_count = 65), Some((8, count)));
    assert_eq!(answer_3(|d| d.notes[4].length = 18), Some((9, note_4)));
    let note =
        |key, ra, waits: Vec<u8>| answer_3(|d| d.notes[4] = DraftNote::new(key, ra, 5, 9, waits));
    assert_eq!(note(118, 6, vec![4]), Some((11, note_4)));
    assert_eq!(note(118, 5, vec![4]), Some((10, note_4)));
    assert_eq!(note(119, 5, vec![4]), Some((12, note_4)));
    assert_eq!(answer_3(|d| d.remaining = vec![0]), Some((3, note_4 + 14)));
}

#[test]
fn a_head_of_one_version_before_the_body_of_another_is_read_by_the_head() {
    // P's bell count is taken for the shift 2, its first written key for the bell count.
    assert_eq!(refused(&p_with(0, 2)), Some((6, 8)));
    // The shift -3 is taken for a bell count of 253; the shift 1 for one of 1, before what is no bell.
    assert_eq!(refused(&p_shifted_with(0, 1)), Some((5, 6)));
    let mut file = p_shifted_with(0, 1);
    file[6] = 1;
    assert_eq!(refused(&file), Some((6, 7)));
    // Before bells of 7 bytes, and in version 2 before bells of 9.
    assert_eq!(refused(&p_shifted_with(0, 3)), Some((6, 17)));
    assert_eq!(refused(&p_rested_with(&[(0, 2)])), Some((6, 15)));
}

#[test]
fn p_in_version_3_cut_anywhere_is_refused_where_the_cut_field_or_record_begins() {
    for length in 0..P_RESTED.len() {
        let mut file = P_RESTED[..length].to_vec();
        let number = if length < 5 { 2 } else { 3 };
        let place = match length {
            0..5 => 0,
            5 => 5,
            6 => 6,
            7 => 7,
            8..17 => 8,
            17..26 => 17,
            26 => 26,
            27..41 => 27,
            _ => 41,
        };
        assert_eq!(refused(&file), Some((2, 0)), "the count is wrong");
        correct_count(&mut file, 0);
        assert_eq!(refused(&file), Some((number, place)), "{length} bytes");
    }
}

#[test]
fn p_cut_anywhere_is_refused_where_the_cut_field_or_record_begins() {
    for length in 0..P.len() {
        let mut file = P[..length].to_vec();
        let number = if length < 5 { 2 } else { 3 };
        let place = match length {
            0..5 => 0,
            5 => 5,
            6 => 6,
            7..14 => 7,
            14..21 => 14,
            21 => 21,
            22..36 => 22,
            _ => 36,
        };
        assert_eq!(refused(&file), Some((2, 0)), "the count is wrong");
        correct_count(&mut file, 0);
        assert_eq!(refused(&file), Some((number, place)), "{length} bytes");
    }
}

#[test]
fn p_in_version_2_cut_anywhere_is_refused_where_the_cut_field_or_record_begins() {
    for length in 0..P_SHIFTED.len() {
        let mut file = P_SHIFTED[..length].to_vec();
        let number = if length < 5 { 2 } else { 3 };
        let place = match length {
            0..5 => 0,
            5 => 5,
            6 => 6,
            7 => 7,
            8..15 => 8,
            15..22 => 15,
            22 => 22,
            23..37 => 23,
            _ => 37,
        };
        assert_eq!(refused(&file), Some((2, 0)), "the count is wrong");
        correct_count(&mut file, 0);
        assert_eq!(refused(&file), Some((number, place)), "{length} bytes");
    }
}

#[test]
fn bytes_that_remain_are_refused_where_they_begin() {
    for more in 1..4 {
        let mut file = P.to_vec();
        file.resize(P.len() + more, 0);
        assert_eq!(refused(&file), Some((2, 0)));
        correct_count(&mut file, 0);
        assert_eq!(refused(&file), Some((3, 50)));
        let mut file = P_SHIFTED.to_vec();
        file.resize(P_SHIFTED.len() + more, 0);
        assert_eq!(refused(&file), Some((2, 0)));
        correct_count(&mut file, 0);
        assert_eq!(refused(&file), Some((3, 51)));
        let mut file = P_RESTED.to_vec();
        file.resize(P_RESTED.len() + more, 0);
        assert_eq!(refused(&file), Some((2, 0)));
        correct_count(&mut file, 0);
        assert_eq!(refused(&file), Some((3, 55)));
    }
}
