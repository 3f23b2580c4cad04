//! The writer: files to the byte, every refusal with its place, and what it has in common with the reader.

#[path = "common/counts.rs"]
mod counts;
#[path = "common/rested_writing.rs"]
mod rested_writing;
#[path = "common/shifted_writing.rs"]
mod shifted_writing;
#[path = "common/stored.rs"]
mod stored;
#[path = "common/tally.rs"]
mod tally;
#[path = "common/was_10.rs"]
mod was_10;

use reference::draft::Draft;
use reference::examples::*;
use reference::layout::Layout;
use reference::note_order::phrase_was_10;
use reference::random::{
    CASES, CASES_PER_RESTED, CASES_PER_SHIFTED, EditedCase, Generator, SEED, edited_case, longest,
    rested_edited_case, shifted_edited_case,
};
use reference::reading::{Refusal, read};
use reference::writing::{EditedBell, EditedNote, EditedPhrase, write, write_into};
use rested_writing::RestedWriting;
use shifted_writing::ShiftedWriting;
use stored::stored_files;
use tally::Tally;
use was_10::WasTen;

/// N, T as a byte, ca, cb, p; without a rest.
fn bell([written, transposition, ca, cb, rank]: [u32; 5]) -> EditedBell {
    EditedBell {
        written,
        transposition,
        ca,
        cb,
        rest: 0,
        rank,
    }
}

/// Key, ra, rb, d, and the listed waits; what a file may not have in the rows after them.
fn note([key, ra, rb, due]: [u32; 4], listed: &[u32]) -> EditedNote {
    let mut waits = [u32::MAX; 4];
    waits[..listed.len()].copy_from_slice(listed);
    EditedNote {
        key,
        ra,
        rb,
        due,
        wait_count: listed.len() as u32,
        waits,
    }
}

/// A phrase of these bells and notes; what a file may not have in the rows after them.
fn phrase(drivers: u32, bells: &[EditedBell], notes: &[EditedNote]) -> EditedPhrase {
    let mut phrase = EditedPhrase {
        version: 1,
        drivers,
        shift: 0,
        bell_count: bells.len() as u32,
        note_count: notes.len() as u32,
        bells: [bell([u32::MAX; 5]); 96],
        notes: [note([u32::MAX; 4], &[u32::MAX; 4]); 64],
    };
    phrase
        .bells
        .iter_mut()
        .for_each(|bell| bell.rest = u32::MAX);
    phrase.bells[..bells.len()].copy_from_slice(bells);
    phrase.notes[..notes.len()].copy_from_slice(notes);
    phrase
}

/// Phrase P, by the fields that its bytes stand for.
fn p() -> EditedPhrase {
    phrase(
        1,
        &[bell([60, 0, 2, 2, 1]), bell([62, 12, 4, 4, 2])],
        &[note([60, 0, 5, 7], &[]), note([74, 0, 0, 6], &[])],
    )
}

/// Limits of many fields, transpositions of both signs, and waits: bells at 7 and 14, the note count at 21, notes at 22,
/// 36 and 51.
fn limits() -> EditedPhrase {
    phrase(
        8,
        // Sounding for 36 and 119.
        &[bell([60, 232, 1, 5000, 255]), bell([95, 24, 5000, 5000, 0])],
        &[
            note([36, 0, 3_600_000, 0], &[]),
            note([119, 3_600_000, 3_600_000, 3_600_000], &[0]),
            note([36, 1, 2, 258], &[0, 1]),
        ],
    )
}

const LIMITS_FILE: [u8; 67] = [
    0x01, 0x00, 0x00, 0x00, 0x3E, 0x08, 0x02, //
    0x3C, 0xE8, 0x00, 0x01, 0x13, 0x88, 0xFF, //
    0x5F, 0x18, 0x13, 0x88, 0x13, 0x88, 0x00, //
    0x03, //
    0x0D, 0x24, 0x00, 0x00, 0x00, 0x00, 0x00, 0x36, 0xEE, 0x80, 0x00, 0x00, 0x00, 0x00, //
    0x0E, 0x77, 0x00, 0x36, 0xEE, 0x80, 0x00, 0x36, 0xEE, 0x80, 0x00, 0x36, 0xEE, 0x80, //
    0x00, //
    0x0F, 0x24, 0x00, 0x00, 0x00, 0x01, 0x00, 0x00, 0x00, 0x02, 0x00, 0x00, 0x01, 0x02, //
    0x00, 0x01,
];

/// The same phrase in version 2 with this shift: every key is written so much lower.
fn shifted(mut phrase: EditedPhrase, shift: i8) -> EditedPhrase {
    phrase.version = 2;
    phrase.shift = u32::from(shift as u8);
    for note in &mut phrase.notes[..phrase.note_count as usize] {
        note.key = note.key.checked_add_signed(-i32::from(shift)).unwrap();
    }
    phrase
}

/// The same phrase in version 3 with this shift and these rests of its two bells.
fn with_rests(phrase: EditedPhrase, shift: i8, rests: [u32; 2]) -> EditedPhrase {
    let mut phrase = shifted(phrase, shift);
    phrase.version = 3;
    (phrase.bells[0].rest, phrase.bells[1].rest) = (rests[0], rests[1]);
    phrase
}

/// `LIMITS_FILE` in version 2: the count, the shift, and the keys of its notes are others.
fn limits_shifted_file(shift: u8, keys: [u8; 3]) -> Vec<u8> {
    let mut file = LIMITS_FILE.to_vec();
    (file[0], file[4]) = (2, 0x3F);
    (file[23], file[37], file[52]) = (keys[0], keys[1], keys[2]);
    file.insert(6, shift);
    file
}

/// Room for every file.
const ENOUGH: usize = 4_096;

fn refused(phrase: &EditedPhrase, room: usize) -> Option<(u64, u64)> {
    write(phrase, room)
        .err()
        .map(|Refusal { number, place }| (number, place))
}

/// The refusal of `limits` after a change, whatever the room.
fn answer(change: impl FnOnce(&mut EditedPhrase)) -> Option<(u64, u64)> {
    let mut phrase = limits();
    change(&mut phrase);
    let answer = refused(&phrase, ENOUGH);
    if answer.is_some() {
        assert_eq!(refused(&phrase, 0), answer, "16 comes last");
    }
    answer
}

#[test]
fn p_is_written_to_the_byte() {
    assert_eq!(write(&p(), ENOUGH), Ok(P.to_vec()));
}

#[test]
fn limits_signs_and_waits_have_their_bytes() {
    assert_eq!(write(&limits(), ENOUGH), Ok(LIMITS_FILE.to_vec()));
}

#[test]
fn a_phrase_of_version_2_is_written_with_its_shift_and_its_keys_as_written() {
    assert_eq!(write(&shifted(p(), -3), ENOUGH), Ok(P_SHIFTED.to_vec()));
    let written = |shift| write(&shifted(limits(), shift), ENOUGH);
    let file = limits_shifted_file(0xE8, [60, 143, 60]);
    assert_eq!(written(-24), Ok(file));
    let file = limits_shifted_file(0x18, [12, 95, 12]);
    assert_eq!(written(24), Ok(file));
    let file = limits_shifted_file(0, [36, 119, 36]);
    assert_eq!(written(0), Ok(file));
}

#[test]
fn a_phrase_of_version_3_is_written_with_its_rests() {
    let phrase = with_rests(p(), -3, [5_000, 0]);
    assert_eq!(write(&phrase, ENOUGH), Ok(P_RESTED.to_vec()));
    // The rests stand before p; the rest of the file is that of version 2 with another version and count.
    let mut file = limits_shifted_file(0x18, [12, 95, 12]);
    (file[0], file[4]) = (3, 0x43);
    file.splice(21..21, [0x00, 0x01]);
    file.splice(14..14, [0x12, 0x34]);
    assert_eq!(file[14..17], [0x12, 0x34, 0xFF]);
    assert_eq!(file[23..26], [0x00, 0x01, 0x00]);
    let phrase = with_rests(limits(), 24, [0x1234, 1]);
    assert_eq!(write(&phrase, ENOUGH), Ok(file));
}

#[test]
fn no_notes_and_one_bell_are_a_file() {
    let phrase = phrase(1, &[bell([12, 0, 1, 1, 0])], &[]);
    assert_eq!(write(&phrase, 15), Ok(m8()));
}

/// The rows of document 01's table that a phrase can meet, with P.
#[test]
fn refusals_have_the_places_of_document_01() {
    let p_refused = |change: fn(&mut EditedPhrase)| {
        let mut phrase = p();
        change(&mut phrase);
        refused(&phrase, ENOUGH)
    };
    assert_eq!(p_refused(|p| p.version = 9), Some((1, 0)));
    assert_eq!(p_refused(|p| p.drivers = 0), Some((4, 5)));
    assert_eq!(p_refused(|p| p.bell_count = 0), Some((5, 6)));
    assert_eq!(p_refused(|p| p.bells[0].written = 11), Some((6, 7)));
    assert_eq!(p_refused(|p| p.bells[1].transposition = 254), Some((7, 14)));
    assert_eq!(p_refused(|p| p.note_count = 65), Some((8, 21)));
    assert_eq!(p_refused(|p| p.notes[0].wait_count = 5), Some((9, 22)));
    assert_eq!(p_refused(|p| p.notes[1].key = 62), Some((10, 36)));
    assert_eq!(p_refused(|p| p.notes[0].ra = 6), Some((11, 22)));
    let waits_for_itself = |p: &mut EditedPhrase| p.notes[1] = note([74, 0, 0, 6], &[1]);
    assert_eq!(p_refused(waits_for_itself), Some((12, 36)));
}

#[test]
fn refusals_have_the_places_of_version_2() {
    let p_refused = |change: fn(&mut EditedPhrase)| {
        let mut phrase = shifted(p(), -3);
        change(&mut phrase);
        refused(&phrase, ENOUGH)
    };
    assert_eq!(p_refused(|p| p.version = 4), Some((1, 0)));
    assert_eq!(p_refused(|p| p.drivers = 0), Some((4, 5)));
    assert_eq!(p_refused(|p| p.version = 1), Some((19, 6)));
    assert_eq!(p_refused(|p| p.shift = 25), Some((19, 6)));
    assert_eq!(p_refused(|p| p.bell_count = 0), Some((5, 7)));
    assert_eq!(p_refused(|p| p.bells[0].written = 11), Some((6, 8)));
    assert_eq!(p_refused(|p| p.bells[1].transposition = 254), Some((7, 15)));
    assert_eq!(p_refused(|p| p.note_count = 65), Some((8, 22)));
    assert_eq!(p_refused(|p| p.notes[0].wait_count = 5), Some((9, 23)));
    // Bell 1 sounds for 74: the key without the shift.
    assert_eq!(p_refused(|p| p.notes[1].key = 74), Some((10, 37)));
    assert_eq!(p_refused(|p| p.notes[0].ra = 6), Some((11, 23)));
    let waits_for_itself = |p: &mut EditedPhrase| p.notes[1] = note([77, 0, 0, 6], &[1]);
    assert_eq!(p_refused(waits_for_itself), Some((12, 37)));
}

#[test]
fn refusals_have_the_places_of_version_3() {
    let p_refused = |change: fn(&mut EditedPhrase)| {
        let mut phrase = with_rests(p(), -3, [5_000, 0]);
        change(&mut phrase);
        refused(&phrase, ENOUGH)
    };
    assert_eq!(p_refused(|p| p.version = 4), Some((1, 0)));
    assert_eq!(p_refused(|p| p.drivers = 0), Some((4, 5)));
    assert_eq!(p_refused(|p| p.shift = 25), Some((19, 6)));
    assert_eq!(p_refused(|p| p.bell_count = 0), Some((5, 7)));
    assert_eq!(p_refused(|p| p.bells[0].written = 11), Some((6, 8)));
    assert_eq!(p_refused(|p| p.bells[0].rest = 5_001), Some((6, 8)));
    assert_eq!(p_refused(|p| p.bells[1].rest = 5_001), Some((6, 17)));
    assert_eq!(p_refused(|p| p.bells[1].transposition = 254), Some((7, 17)));
    assert_eq!(p_refused(|p| p.note_count = 65), Some((8, 26)));
    assert_eq!(p_refused(|p| p.notes[0].wait_count = 5), Some((9, 27)));
    assert_eq!(p_refused(|p| p.notes[1].key = 74), Some((10, 41)));
    assert_eq!(p_refused(|p| p.notes[0].ra = 6), Some((11, 27)));
    let waits_for_itself = |p: &mut EditedPhrase| p.notes[1] = note([77, 0, 0, 6], &[1]);
    assert_eq!(p_refused(waits_for_itself), Some((12, 41)));
    // Rests in a version without bytes for them: at the bell's first byte, after 19 of a shift without a byte.
    assert_eq!(p_refused(|p| p.version = 2), Some((6, 8)));
    assert_eq!(p_refused(|p| p.version = 1), Some((19, 6)));
    assert_eq!(
        p_refused(|p| (p.version, p.shift) = (1, 0)),
        Some((6, 7)),
        "although no key finds its bell"
    );
}

#[test]
fn a_rest_has_its_limits() {
    for (version, bell_at) in [(1, [7, 14]), (2, [8, 15]), (3, [8, 17])] {
        for number in [0, 1] {
            let with = |rest| {
                answer(|p| {
                    p.version = version;
                    p.bells[number].rest = rest;
                })
            };
            let six = Some((6, bell_at[number]));
            let longest = if version == 3 { 5_000 } else { 0 };
            for rest in (0..=6_000).chain(65_500..=70_600) {
                let expected = if rest <= longest { None } else { six };
                assert_eq!(with(rest), expected, "version {version}, rest {rest}");
            }
            // Too wide, though the two low bytes are right.
            for rest in [1 << 16, 5_000 + (1 << 16), 1 << 24, 1 << 31, u32::MAX] {
                assert_eq!(with(rest), six, "version {version}, rest {rest}");
            }
        }
        // Of bell 1 6 comes before 7; but 6 of bell 0 before both.
        let doubled = |rests: [u32; 2]| {
            answer(|p| {
                p.version = version;
                p.bells[1].written = 12;
                (p.bells[0].rest, p.bells[1].rest) = (rests[0], rests[1]);
            })
        };
        assert_eq!(doubled([0, 0]), Some((7, bell_at[1])));
        assert_eq!(doubled([0, 5_001]), Some((6, bell_at[1])));
        assert_eq!(doubled([5_001, 5_001]), Some((6, bell_at[0])));
    }
}

#[test]
fn the_shift_has_its_limits() {
    let with = |version, shift| {
        answer(|p| {
            (p.version, p.shift) = (version, shift);
            p.note_count = 0;
        })
    };
    let nineteen = Some((19, 6));
    for shift in 0..=255 {
        // As a signed byte, 232 is -24.
        let in_range = matches!(shift, 0..=24 | 232..=255);
        let expected = if in_range { None } else { nineteen };
        assert_eq!(with(2, shift), expected, "{shift}");
        assert_eq!(with(3, shift), expected, "{shift} in version 3");
        let expected = if shift == 0 { None } else { nineteen };
        assert_eq!(with(1, shift), expected, "{shift} in version 1");
    }
    // Too wide, though the low byte is right, or the number of 32 bits.
    for shift in [
        256,
        256 + 24,
        65_536,
        1 << 24,
        1 << 31,
        0xFFFF_FF00,
        0xFFFF_FFE8,
        u32::MAX,
    ] {
        assert_eq!(with(2, shift), nineteen, "{shift}");
        assert_eq!(with(1, shift), nineteen, "{shift} in version 1");
        assert_eq!(with(3, shift), nineteen, "{shift} in version 3");
        assert_eq!(with(4, shift), Some((1, 0)), "{shift} in version 4");
    }
}

#[test]
fn a_key_and_a_shift_find_the_bell_of_their_sum() {
    // Bells sound for 12 and 119, the lowest and the highest that there may be.
    let bells = [bell([12, 0, 1, 1, 0]), bell([95, 24, 1, 1, 0])];
    let with = |key, shift: i8| {
        let mut phrase = phrase(1, &bells, &[note([key, 0, 0, 0], &[])]);
        (phrase.version, phrase.shift) = (2, u32::from(shift as u8));
        refused(&phrase, ENOUGH)
    };
    let ten = Some((10, 8 + 14 + 1));
    for shift in -24..=24 {
        for key in 0..=300 {
            let sum = i64::from(key) + i64::from(shift);
            let expected = if sum == 12 || sum == 119 { None } else { ten };
            assert_eq!(with(key, shift), expected, "{key} {shift}");
        }
        for sounding in [12, 119] {
            let key = sounding - i32::from(shift);
            // Only the low byte of the key is right, or the sum's, or its 32 bits.
            for wide in [256, 65_536, 1 << 24, i32::MIN] {
                let key = key.wrapping_add(wide) as u32;
                assert_eq!(with(key, shift), ten, "{key} {shift}");
            }
            if key < 0 {
                assert_eq!(with(key as u32, shift), ten, "{key} {shift}");
                assert_eq!(with(key as u32 & 0xFF, shift), ten, "{key} {shift}");
            }
        }
        for key in [u32::MAX, u32::MAX - 11, u32::MAX - 19] {
            assert_eq!(with(key, shift), ten, "{key} {shift}");
        }
    }
}

#[test]
fn heads_have_their_limits() {
    for version in [0, 4, 255, 256, 257, 258, 259, 65_538, 1 << 24, u32::MAX] {
        assert_eq!(answer(|p| p.version = version), Some((1, 0)), "{version}");
    }
    assert_eq!(answer(|p| p.version = 2), None);
    assert_eq!(answer(|p| p.version = 3), None);
    for drivers in 1..=8 {
        assert_eq!(answer(|p| p.drivers = drivers), None);
    }
    for drivers in [0, 9, 255, 256, 257, 264, 65_544, u32::MAX] {
        assert_eq!(answer(|p| p.drivers = drivers), Some((4, 5)), "{drivers}");
    }
    for count in [0, 97, 255, 256, 258, 65_538, 1 << 31, u32::MAX] {
        assert_eq!(answer(|p| p.bell_count = count), Some((5, 6)), "{count}");
    }
    for count in [65, 255, 256, 259, 65_539, 1 << 31, u32::MAX] {
        assert_eq!(answer(|p| p.note_count = count), Some((8, 21)), "{count}");
    }
}

#[test]
fn bell_fields_have_their_limits() {
    let with = |fields| answer(|p| (p.bells[1], p.note_count) = (bell(fields), 0));
    let six = Some((6, 14));
    for (written, transposition, expected) in [
        (12, 0, None),
        (11, 0, six),
        (11, 1, six),
        (119, 0, None),
        (120, 0, six),
        (120, 255, six),
        (50, 24, None),
        (50, 25, six),
        (50, 232, None),
        (50, 231, six),
        (50, 127, six),
        (50, 128, six),
        (13, 255, None),
        (12, 255, six),
        (118, 1, None),
        (119, 1, six),
        // Too wide, though the low byte is right, or the sum of 32 bits.
        (256 + 50, 0, six),
        (65_536 + 50, 0, six),
        (50, 256, six),
        (50, 65_536 + 24, six),
        (50, u32::MAX, six),
        (50, 0xFFFF_FFE8, six),
        (u32::MAX, 0, six),
        (u32::MAX - 3, 24, six),
        (60, u32::MAX - 9, six),
    ] {
        let fields = [written, transposition, 1, 1, 0];
        assert_eq!(with(fields), expected, "{written} {transposition}");
    }
    for (ca, cb, expected) in [
        (0, 5, six),
        (0, 0, six),
        (1, 1, None),
        (5, 4, six),
        (256, 255, six),
        (5000, 5000, None),
        (5000, 5001, six),
        (5001, 5001, six),
        (5, 65_536 + 5, six),
        (65_536 + 5, 65_536 + 5, six),
        (u32::MAX, u32::MAX, six),
        (1, 1 << 31, six),
    ] {
        assert_eq!(with([50, 0, ca, cb, 0]), expected, "{ca} {cb}");
    }
    for rank in [0, 1, 255] {
        assert_eq!(with([50, 0, 1, 1, rank]), None);
    }
    for rank in [256, 257, 65_536, 65_791, 1 << 24, u32::MAX] {
        assert_eq!(with([50, 0, 1, 1, rank]), six, "{rank}");
    }
    // Bell 0 sounds for 36: by itself 7, but 6 comes first.
    for (written, transposition) in [(36, 0), (60, 232), (12, 24), (40, 252)] {
        let seven = Some((7, 14));
        assert_eq!(with([written, transposition, 1, 1, 0]), seven);
        assert_eq!(with([written, transposition, 1, 1, 256]), six);
    }
}

#[test]
fn note_fields_have_their_limits() {
    let with = |changed| answer(|p| p.notes[2] = changed);
    for count in [5, 6, 242, 243, 255, 256, 258, 65_538, 1 << 31, u32::MAX] {
        let mut changed = limits().notes[2];
        changed.wait_count = count;
        assert_eq!(with(changed), Some((9, 51)), "{count}");
    }
    // 60 is only written.
    for key in [0, 35, 60, 120, 255, 292, 65_655, 1 << 31, u32::MAX] {
        let found = with(note([key, 1, 2, 258], &[0, 1]));
        assert_eq!(found, Some((10, 51)), "{key}");
    }
    let eleven = Some((11, 51));
    for (ra, rb, due, expected) in [
        (0, 0, 0, None),
        (3_600_000, 3_600_000, 0, None),
        (3_600_000, 3_600_001, 0, eleven),
        (3_600_001, 3_600_001, 0, eleven),
        (1, 0, 9, eleven),
        (0, 0, 3_600_000, None),
        (0, 0, 3_600_001, eleven),
        (u32::MAX, 5, 5, eleven),
        (5, u32::MAX, 5, eleven),
        (5, 5, u32::MAX, eleven),
    ] {
        let found = with(note([36, ra, rb, due], &[]));
        assert_eq!(found, expected, "{ra} {rb} {due}");
    }
    let twelve = Some((12, 51));
    for (waits, expected) in [
        (vec![], None),
        (vec![1], None),
        (vec![0, 1], None),
        (vec![2], twelve),
        (vec![3], twelve),
        (vec![1, 1], twelve),
        (vec![1, 0], twelve),
        (vec![0, 1, 2], twelve),
        (vec![256], twelve),
        (vec![0, 65_537], twelve),
        (vec![256, 1], twelve),
        (vec![0, 1, u32::MAX, u32::MAX], twelve),
    ] {
        let found = with(note([36, 1, 2, 258], &waits));
        assert_eq!(found, expected, "{waits:?}");
    }
}

#[test]
fn the_first_rule_in_order_answers() {
    let version = |p: &mut EditedPhrase| p.version = 257;
    let drivers = |p: &mut EditedPhrase| p.drivers = u32::MAX;
    let shift = |p: &mut EditedPhrase| p.shift = 25;
    let bell_count = |p: &mut EditedPhrase| p.bell_count = u32::MAX;
    let bell_0 = |p: &mut EditedPhrase| p.bells[0].rank = 256;
    // Bell 0 sounds for 36.
    let doubled = |p: &mut EditedPhrase| p.bells[1].written = 12;
    let note_count = |p: &mut EditedPhrase| p.note_count = 256;
    let waits_0 = |p: &mut EditedPhrase| p.notes[0].wait_count = 256;
    let times_0 = |p: &mut EditedPhrase| p.notes[0].due = u32::MAX;
    let key_0 = |p: &mut EditedPhrase| p.notes[0].key = 256 + 36;
    let listed_0 = |p: &mut EditedPhrase| p.notes[0].wait_count = 1;
    let waits_1 = |p: &mut EditedPhrase| p.notes[1].wait_count = 5;
    let listed_1 = |p: &mut EditedPhrase| p.notes[1].waits[0] = 256;
    let key_2 = |p: &mut EditedPhrase| p.notes[2].key = 0;
    type Change = fn(&mut EditedPhrase);
    let in_order: [(Change, u64, u64); 14] = [
        (version, 1, 0),
        (drivers, 4, 5),
        (shift, 19, 6),
        (bell_count, 5, 6),
        (bell_0, 6, 7),
        (doubled, 7, 14),
        (note_count, 8, 21),
        (waits_0, 9, 22),
        (times_0, 11, 22),
        (key_0, 10, 22),
        (listed_0, 12, 22),
        (waits_1, 9, 36),
        (listed_1, 12, 36),
        (key_2, 10, 51),
    ];
    for (first, (_, number, place)) in in_order.iter().enumerate() {
        // The later ones first, so that the first one has the last word on a field that two of them change.
        let found = answer(|p| {
            for (change, ..) in in_order[first..].iter().rev() {
                change(p);
            }
        });
        assert_eq!(found, Some((*number, *place)));

        let found = answer(|p| {
            p.version = 2;
            for (change, ..) in in_order[first..].iter().rev() {
                change(p);
            }
        });
        // One byte further on after the shift.
        let place = place + u64::from(first > 2);
        assert_eq!(found, Some((*number, place)), "version 2");
    }
}

#[test]
fn an_exact_fit_is_enough_and_one_byte_less_is_16() {
    for (phrase, file) in [
        (p(), &P[..]),
        (limits(), &LIMITS_FILE),
        (shifted(p(), -3), &P_SHIFTED),
        (with_rests(p(), -3, [5_000, 0]), &P_RESTED),
    ] {
        for room in 0..file.len() {
            assert_eq!(refused(&phrase, room), Some((16, 0)), "{room}");
        }
        for room in [file.len(), file.len() + 1, ENOUGH, usize::MAX] {
            assert_eq!(write(&phrase, room).as_deref(), Ok(file));
        }
    }
}

#[test]
fn a_lent_buffer_takes_the_file_and_nothing_else() {
    for room in 0..60 {
        let mut buffer = vec![0xAA; room];
        let found = write_into(&p(), &mut buffer);
        let (file, rest) = buffer.split_at(if room < 50 { 0 } else { 50 });
        if room < 50 {
            assert_eq!(found.map_err(Refusal::host_number), Err(16 << 32));
        } else {
            assert_eq!(found, Ok(50));
            assert_eq!(file, P);
        }
        assert!(rest.iter().all(|&byte| byte == 0xAA));
    }
    let mut broken = p();
    broken.notes[1].due = u32::MAX;
    let mut buffer = [0xAA; 60];
    let found = write_into(&broken, &mut buffer);
    assert_eq!(found.map_err(Refusal::host_number), Err(11 << 32 | 36));
    assert_eq!(buffer, [0xAA; 60]);
}

/// 96 bells take 672 bytes, 64 notes with four waits each 1,152; but the first four have no four strokes before them.
#[test]
fn the_longest_file_has_1822_bytes() {
    let draft = longest(&mut Generator::new(SEED));
    let mut phrase = EditedPhrase::from(&draft);
    assert_eq!((phrase.bell_count, phrase.note_count), (96, 64));
    assert_eq!(write(&phrase, 1_822), Ok(draft.bytes()));
    assert_eq!(draft.bytes().len(), 1_822);
    assert_eq!(refused(&phrase, 1_821), Some((16, 0)));

    let last = phrase.clone();
    phrase.notes[63].waits[3] += 256;
    assert_eq!(refused(&phrase, ENOUGH), Some((12, 1_822 - 18)));
    phrase = last;
    phrase.note_count = 65;
    assert_eq!(refused(&phrase, ENOUGH), Some((8, 7 + 672)));
    phrase.note_count = 64;
    for note in &mut phrase.notes[..4] {
        (note.wait_count, note.waits) = (4, [0, 1, 2, 3]);
    }
    assert_eq!(refused(&phrase, ENOUGH), Some((12, 7 + 672 + 1)));
    assert_eq!(Draft::of(&phrase).unwrap().bytes().len(), 1_832);
    // One byte more with a shift.
    phrase = shifted(phrase, -24);
    assert_eq!(refused(&phrase, ENOUGH), Some((12, 8 + 672 + 1)));
    assert_eq!(Draft::of(&phrase).unwrap().bytes().len(), 1_833);
}

#[test]
fn the_longest_file_of_version_2_has_1823_bytes() {
    let draft = longest(&mut Generator::new(SEED)).shifted(-24).unwrap();
    let mut phrase = EditedPhrase::from(&draft);
    assert_eq!(write(&phrase, 1_823), Ok(draft.bytes()));
    assert_eq!(draft.bytes().len(), 1_823);
    assert_eq!(refused(&phrase, 1_822), Some((16, 0)));
    phrase.notes[63].waits[3] += 256;
    assert_eq!(refused(&phrase, ENOUGH), Some((12, 1_823 - 18)));
}

/// One byte more than in version 1 for the shift, and 192 for the rests of 96 bells.
#[test]
fn the_longest_file_of_version_3_has_2015_bytes() {
    let mut rests = (0..).map(|number| number * 50);
    let draft = longest(&mut Generator::new(SEED)).shifted(-24).unwrap();
    let draft = draft.rested(|| rests.next().unwrap());
    let mut phrase = EditedPhrase::from(&draft);
    assert_eq!(draft.bytes().len(), 2_015);
    assert_eq!(write(&phrase, 2_015), Ok(draft.bytes()));
    assert_eq!(refused(&phrase, 2_014), Some((16, 0)));
    phrase.notes[63].waits[3] += 256;
    assert_eq!(refused(&phrase, ENOUGH), Some((12, 2_015 - 18)));
    // All records at their longest, 2,025 bytes, cannot be right: the first notes have no four strokes before them.
    for note in &mut phrase.notes[..4] {
        (note.wait_count, note.waits) = (4, [0, 1, 2, 3]);
    }
    phrase.notes[63].waits[3] -= 256;
    assert_eq!(refused(&phrase, ENOUGH), Some((12, 8 + 96 * 9 + 1)));
    assert_eq!(Draft::of(&phrase).unwrap().bytes().len(), 2_025);
}

#[test]
fn the_wait_that_a_bell_adds_is_not_written() {
    // Both strokes of one bell: the second waits for the first, listed or not.
    let chain = |waits: &[u32]| {
        let notes = [note([60, 0, 0, 9], &[]), note([60, 0, 0, 9], waits)];
        phrase(1, &[bell([60, 0, 1, 1, 0])], &notes)
    };
    for (waits, length) in [(&[][..], 43), (&[0], 44)] {
        let file = write(&chain(waits), ENOUGH).unwrap();
        assert_eq!(file.len(), length);
        let phrase = read(&file).unwrap();
        assert_eq!(phrase.strokes[1].waits, [0]);
        assert!(EditedPhrase::from(&phrase) == chain(waits));
        assert_eq!(write(&EditedPhrase::from(&phrase), ENOUGH), Ok(file));
    }
}

#[test]
fn stored_files_are_written_as_they_were_read() {
    let (mut sound, mut damaged) = (0, 0);
    for stored in stored_files().unwrap() {
        let Ok(phrase) = read(&stored.file) else {
            damaged += 1;
            continue;
        };
        sound += 1;
        let written = write(&EditedPhrase::from(&phrase), stored.file.len());
        assert!(written == Ok(stored.file), "{}", stored.name);
    }
    println!("{sound} files, {damaged} more that are not read");
    assert!(sound > 0);
}

/// Which of N, T, the holds and p of the bell at this place are too wide for their bytes.
fn too_wide(phrase: &EditedPhrase, place: u64) -> [bool; 4] {
    let layout = Layout::of(phrase.version.into()).expect("a bell was refused");
    let bell = phrase.bells[(place as usize - layout.bells_at()) / layout.bell_bytes()];
    [
        bell.written > 255,
        bell.transposition > 255,
        bell.cb > 65_535,
        bell.rank > 255,
    ]
}

#[test]
fn each_field_of_a_bell_is_often_too_wide() {
    let mut by_field = [0; 4];
    for number in 0..CASES {
        let EditedCase { phrase, .. } = edited_case(SEED, number);
        let sound_if_cut = read(&Draft::cut(&phrase).bytes()).is_ok();
        if let (true, Some((6, place))) = (sound_if_cut, refused(&phrase, ENOUGH)) {
            for (count, wide) in by_field.iter_mut().zip(too_wide(&phrase, place)) {
                *count += u64::from(wide);
            }
        }
    }
    println!("sound if cut to their bytes: N, T, holds, p {by_field:?}");
    assert!(by_field.iter().all(|&count| count * 200 >= CASES));
}

/// What the writer and the reader made of random phrases.
#[derive(Default)]
struct Seen {
    answers: Tally,
    fitting: Tally,
    only_too_wide: Tally,
    was_10: WasTen,
    longest: u64,
}

impl Seen {
    /// A phrase is refused as its file, or read back. The longest file has so many bytes.
    fn hold_to_the_reader(&mut self, number: u64, case: &EditedCase, longest: usize) {
        let draft = Draft::of(&case.phrase).map(|draft| draft.bytes());
        let written = write(&case.phrase, ENOUGH);
        match &written {
            Ok(file) => {
                assert!(draft.as_ref() == Some(file), "case {number}");
                let phrase = read(file).expect("what is written can be read");
                assert!(EditedPhrase::from(&phrase) == case.phrase, "case {number}");
                self.longest += u64::from(file.len() == longest);
            }
            Err(refusal) => {
                let answer = refusal.host_number();
                match draft {
                    Some(file) => {
                        assert_eq!(read(&file).unwrap_err(), *refusal, "case {number}");
                        self.fitting.add(answer);
                    }
                    None if read(&Draft::cut(&case.phrase).bytes()).is_ok() => {
                        self.only_too_wide.add(answer);
                    }
                    None => {}
                }
            }
        }
        self.was_10.add(phrase_was_10(&case.phrase));
        let answer = write(&case.phrase, case.room);
        (self.answers).add(answer.map_or_else(Refusal::host_number, |_| 0));
    }

    /// Holds the draw to what it has to cover; these numbers are met beside those of every version.
    fn demand_all(&self, cases: u64, beside: &[usize]) {
        (self.answers).print("phrases, by their answer in buffers of many lengths");
        self.fitting.print("refused as their files are");
        (self.only_too_wide).print("refused, and sound if fields were cut to their bytes");
        self.was_10.print("phrases");
        println!("{} of the longest files", self.longest);
        for (what, tally, numbers, of) in [
            (
                "answers",
                &self.answers,
                &[0, 1, 4, 5, 6, 7, 8, 9, 10, 11, 12, 16][..],
                200,
            ),
            (
                "fitting",
                &self.fitting,
                &[1, 4, 5, 6, 7, 8, 9, 10, 11, 12],
                400,
            ),
            (
                "too wide",
                &self.only_too_wide,
                &[1, 4, 5, 6, 8, 9, 10, 12],
                1_000,
            ),
        ] {
            for &number in numbers.iter().chain(beside) {
                let often = tally.counts[number] * of >= cases;
                assert!(often, "{what}: {number} is rare");
            }
        }
        self.was_10.demand(cases).unwrap();
        assert!(self.longest * 100 >= cases);
    }
}

#[test]
fn random_phrases_are_refused_as_their_files_or_read_back() {
    let mut seen = Seen::default();
    for number in 0..CASES {
        seen.hold_to_the_reader(number, &edited_case(SEED, number), 1_822);
    }
    seen.demand_all(CASES, &[]);
}

#[test]
fn random_phrases_of_version_2_are_refused_as_their_files_or_read_back() {
    let cases = CASES / CASES_PER_SHIFTED;
    let (mut seen, mut kinds) = (Seen::default(), ShiftedWriting::new());
    for number in 0..cases {
        let case = shifted_edited_case(SEED, number);
        seen.hold_to_the_reader(number, &case, 1_823);
        kinds.add(&case.phrase);
    }
    kinds.print();
    // Where the shift is often broken, other fields are less often the first.
    seen.demand_all(cases / 2, &[19]);
    kinds.demand_all(cases).unwrap();
}

#[test]
fn random_phrases_of_version_3_are_refused_as_their_files_or_read_back() {
    let cases = CASES / CASES_PER_RESTED;
    let (mut seen, mut kinds) = (Seen::default(), RestedWriting::new());
    for number in 0..cases {
        let case = rested_edited_case(SEED, number);
        seen.hold_to_the_reader(number, &case, 2_015);
        kinds.add(&case.phrase);
    }
    kinds.print();
    // Where rests and the shift are often broken, other fields are less often the first.
    seen.demand_all(cases / 2, &[19]);
    kinds.demand_all(cases).unwrap();
}
