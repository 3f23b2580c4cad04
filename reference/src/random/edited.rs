//! Phrases to write: sound ones, ones with fields out of range or too wide for their bytes, and buffers around the
//! file's length.

use std::array;

use super::large::distinct;
use super::shifted::key_near;
use super::valid::{self, Shape};
use super::{Generator, Versioned};
use crate::draft::{Draft, DraftNote};
use crate::reading::MOST_WAITS;
use crate::writing::{EditedBell, EditedNote, EditedPhrase, file_length};

/// As many bells and strokes as there may be.
const LONGEST: Shape = Shape {
    strokes: (64, 64),
    drivers: (1, 8),
    bells: (96, 96),
    ranks: 256,
    hold: (1, 5000),
    hold_spread: 4999,
    gap: (0, 100_000),
    call_spread: 100_000,
    waiting: 0,
};

/// A phrase to write, and the length of a buffer to lend for it.
#[derive(Clone, Debug)]
pub struct EditedCase {
    pub phrase: EditedPhrase,
    pub room: usize,
}

pub(super) fn edited(random: &mut Generator, versioned: Versioned) -> EditedCase {
    let draft = if random.chance(1, 8) {
        longest(random)
    } else {
        valid::unwalked(random)
    };
    let draft = versioned.both(random, draft);
    let has_rests = draft.another_rest().is_some();
    let mut phrase = EditedPhrase::from(&draft);
    fill_unused(random, &mut phrase, has_rests);
    if random.chance(3, 4) {
        // Several at once show which rule comes first.
        for _ in 0..random.pick(&[1, 1, 1, 2, 3]) {
            break_phrase(random, &mut phrase, has_rests);
        }
    }
    let length = file_length(&phrase).unwrap_or_else(|_| draft.bytes().len());
    let room = room(random, length);
    EditedCase { phrase, room }
}

/// A valid draft with 96 bells and 64 notes, each of which lists as many strokes as it can: four, but for the first ones.
pub fn longest(random: &mut Generator) -> Draft {
    let mut draft = valid::draft(random, &LONGEST);
    for (number, note) in (0..).zip(&mut draft.notes) {
        let mut waits = distinct(random, number, number.min(MOST_WAITS as u64));
        waits.sort_unstable();
        let waits = waits.into_iter().map(|wait| wait as u8).collect();
        *note = DraftNote::new(note.key, note.ra, note.rb, note.due, waits);
    }
    draft
}

/// A buffer's length around the file's.
fn room(random: &mut Generator, length: usize) -> usize {
    match random.below(8) {
        0 => 0,
        1 => random.below(length as u64) as usize,
        2 => length - 1,
        3 | 4 => length,
        5 => length + 1,
        6 => length + random.below(200) as usize,
        _ => 4_096,
    }
}

/// Puts anything into the rows from the counts on: numbers as in a phrase, or any.
fn fill_unused(random: &mut Generator, phrase: &mut EditedPhrase, has_rests: bool) {
    let (bell_count, note_count) = (phrase.bells().len(), phrase.notes().len());
    let limit = random.pick(&[2, 120, 4_000_000, 1 << 32]);
    let mut any = || random.below(limit) as u32;
    for bell in &mut phrase.bells[bell_count..] {
        *bell = EditedBell {
            written: any(),
            transposition: any(),
            ca: any(),
            cb: any(),
            rank: any(),
            rest: 0,
        };
        // Drawn in version 3 alone, so that nothing else is drawn otherwise than before there were rests.
        bell.rest = if has_rests { any() } else { bell.cb };
    }
    for note in &mut phrase.notes[note_count..] {
        *note = EditedNote {
            key: any(),
            ra: any(),
            rb: any(),
            due: any(),
            wait_count: any(),
            waits: array::from_fn(|_| any()),
        };
    }
    for note in &mut phrase.notes {
        let wait_count = note.waits().len();
        note.waits[wait_count..].fill_with(&mut any);
    }
}

/// One field, or two that belong together, at a limit, beyond it or too wide.
fn break_phrase(random: &mut Generator, phrase: &mut EditedPhrase, has_rests: bool) {
    if has_rests && random.chance(1, 3) {
        return break_rest(random, phrase);
    }
    if (phrase.version == 2 || has_rests) && random.chance(1, 4) {
        return break_shift(random, phrase);
    }
    let beside = |count: u32| [count.saturating_sub(1), count.saturating_add(1)];
    let kinds = if has_rests { 21 } else { 20 };
    match random.below(kinds) {
        0 => {
            let next = if has_rests { 4 } else { 3 };
            phrase.version = wrong(random, phrase.version, &[0, next, next, 255, 256]);
        }
        1 => phrase.drivers = wrong(random, phrase.drivers, &[0, 1, 8, 9, 255, 256]),
        2 => {
            let [fewer, more] = beside(phrase.bell_count);
            let others = [0, fewer, more, 96, 97, 98, 255, 256];
            phrase.bell_count = wrong(random, phrase.bell_count, &others);
        }
        3 => {
            let [fewer, more] = beside(phrase.note_count);
            let others = [0, fewer, more, 64, 65, 66, 255, 256];
            phrase.note_count = wrong(random, phrase.note_count, &others);
        }
        4..=10 => break_bell(random, phrase),
        11 => first_notes_list_four(phrase),
        _ if phrase.notes().is_empty() => {}
        // Both 11 and 10, which is rare otherwise.
        20 => {
            let number = row(random, phrase.notes().len());
            let note = &mut phrase.notes[number];
            (note.key, note.due) = (255, 3_600_001);
        }
        _ => break_note(random, phrase),
    }
}

/// The shift, or the version that has a byte for it, or a note's key.
fn break_shift(random: &mut Generator, phrase: &mut EditedPhrase) {
    match random.below(8) {
        0 | 1 => phrase.version = 1,
        2..=4 => {
            let extended = sign_extended(phrase.shift);
            let others = [0, 24, 25, 127, 128, 231, 232, 256, extended];
            phrase.shift = wrong(random, phrase.shift, &others);
        }
        _ if phrase.notes().is_empty() => {}
        _ => break_key(random, phrase),
    }
}

/// A rest, with or without another field of its bell; or the version that has bytes for it.
fn break_rest(random: &mut Generator, phrase: &mut EditedPhrase) {
    let rows = phrase.bells().len().max(1);
    let other = phrase.bells[random.below(rows as u64) as usize];
    let number = row(random, rows);
    match random.below(8) {
        // Of version 1 with a shift it is 19, without one the rests decide, as of version 2.
        0 | 1 => phrase.version = 2,
        2 => (phrase.version, phrase.shift) = (1, random.pick(&[0, 0, phrase.shift])),
        // All other rests are what a file without them has.
        3 => {
            phrase.version = random.pick(&[1, 2, 2]);
            phrase.bells.iter_mut().for_each(|bell| bell.rest = 0);
            phrase.bells[number].rest = random.pick(&[1, 5000, 5001, 65_536, u32::MAX]);
        }
        // By its key 7, but 6 comes first.
        4 => {
            let bell = &mut phrase.bells[number];
            (bell.written, bell.transposition) = (other.written, other.transposition);
            bell.rest = random.pick(&[0, 5000, 5001, 65_536]);
        }
        _ => {
            let bell = &mut phrase.bells[number];
            let wide = too_wide(random, bell.rest, 2);
            let others = [0, 4999, 5000, 5001, 65_535, u32::MAX, wide, wide];
            bell.rest = random.pick(&others);
        }
    }
}

/// As in a file, but cut to a byte or to a word.
fn break_key(random: &mut Generator, phrase: &mut EditedPhrase) {
    let signed = |byte: u32| i64::from(byte as i8);
    let sounding = |bell: &EditedBell| i64::from(bell.written) + signed(bell.transposition);
    let bells: Vec<i64> = phrase.bells().iter().map(sounding).collect();
    let key = key_near(random, &bells, signed(phrase.shift));
    let number = row(random, phrase.notes().len());
    phrase.notes[number].key = random.pick(&[key as u32, key as u32 & 0xFF]);
}

/// Another value: one of these, the greatest, or a value too wide for a byte with the right low byte.
fn wrong(random: &mut Generator, right: u32, others: &[u32]) -> u32 {
    match random.below(8) {
        0 => u32::MAX,
        1..=3 => too_wide(random, right, 1),
        _ => random.pick(others),
    }
}

/// A value too wide for so many bytes, whose low bytes are those of the right one.
fn too_wide(random: &mut Generator, right: u32, bytes: u64) -> u32 {
    let above = random.pick(&[1u32, 2, 128, 255]) << (8 * random.range(bytes, 3));
    right.wrapping_add(above)
}

/// The first row, the last one, or any of so many; breaks often meet in one row.
pub(super) fn row(random: &mut Generator, rows: usize) -> usize {
    match random.below(4) {
        0 => 0,
        1 => rows - 1,
        _ => random.below(rows as u64) as usize,
    }
}

fn break_bell(random: &mut Generator, phrase: &mut EditedPhrase) {
    // A count broken before may be 0.
    let rows = phrase.bells().len().max(1);
    let other = phrase.bells[random.below(rows as u64) as usize];
    let bell = &mut phrase.bells[row(random, rows)];
    match random.below(12) {
        0 => bell.written = wrong(random, bell.written, &[0, 11, 12, 119, 120, 255]),
        1 => {
            let extended = sign_extended(bell.transposition);
            let others = [24, 25, 127, 128, 231, 232, extended];
            bell.transposition = wrong(random, bell.transposition, &others);
        }
        2 => (bell.written, bell.transposition) = random.pick(&AT_LIMITS),
        3 => {
            let others = [0, 1, bell.cb, bell.cb.wrapping_add(1), 5000, 5001, 65_535];
            bell.ca = random.pick(&others);
        }
        4 => {
            let others = [0, bell.ca, bell.ca.saturating_sub(1), 5000, 5001, 65_535];
            bell.cb = random.pick(&others);
        }
        5 => break_holds(random, bell),
        6 | 7 => bell.rank = wrong(random, bell.rank, &[0, 255, 256, 65_535, 65_536]),
        8 => wrap_around(random, bell),
        // The same sounding key; a doubled written key by itself would be right.
        _ => {
            let shift = random.pick(&[0, 1, 255]);
            bell.written = other.written.wrapping_add(shift) & 0xFF;
            bell.transposition = other.transposition.wrapping_sub(shift) & 0xFF;
        }
    }
}

/// Written key and transposition in their ranges, the sounding key at and beyond its limits.
const AT_LIMITS: [(u32, u32); 8] = [
    (12, 0),
    (12, 255),
    (35, 232),
    (36, 232),
    (119, 0),
    (119, 1),
    (95, 24),
    (96, 24),
];

/// A signed byte as a C program may pass it by mistake: -3 as 4294967293.
fn sign_extended(byte: u32) -> u32 {
    i32::from(byte as i8) as u32
}

/// Both holds too wide, so that they are still in order, or the longer one.
fn break_holds(random: &mut Generator, bell: &mut EditedBell) {
    match random.below(4) {
        0 => bell.cb = u32::MAX,
        1 => (bell.ca, bell.cb) = (u32::MAX, u32::MAX),
        2 => bell.cb = too_wide(random, bell.cb, 2),
        _ => {
            let above = too_wide(random, 0, 2);
            bell.ca = bell.ca.wrapping_add(above);
            bell.cb = bell.cb.wrapping_add(above);
        }
    }
}

/// The sum of both fields, taken to 32 bits, stays what it was; the fields do not.
fn wrap_around(random: &mut Generator, bell: &mut EditedBell) {
    let sum = bell.written.wrapping_add(bell.transposition);
    bell.transposition = random.pick(&[24, 200, 255, 256, 65_536, u32::MAX, 1 << 31]);
    bell.written = sum.wrapping_sub(bell.transposition);
}

/// As long as notes get; but there are no four strokes before these.
fn first_notes_list_four(phrase: &mut EditedPhrase) {
    for note in &mut phrase.notes[..MOST_WAITS] {
        note.wait_count = MOST_WAITS as u32;
        note.waits = [0, 1, 2, 3];
    }
}

fn break_note(random: &mut Generator, phrase: &mut EditedPhrase) {
    let bells = phrase.bells().len().max(1);
    let bell = phrase.bells[random.below(bells as u64) as usize];
    let number = row(random, phrase.notes().len());
    let note = &mut phrase.notes[number];
    match random.below(10) {
        // A length byte can hold 13 and 242 more.
        0 | 1 => {
            let others = [0, 4, 5, 6, 242, 243, 244, 255];
            note.wait_count = wrong(random, note.wait_count, &others);
        }
        2 | 3 => {
            let next = note.key.wrapping_add(1);
            let others = [0, 11, 12, 119, 120, 255, next, bell.written];
            note.key = wrong(random, note.key, &others);
        }
        4 => {
            let others = [note.rb, note.rb.wrapping_add(1), 3_600_001, u32::MAX];
            note.ra = random.pick(&others);
        }
        5 => {
            let others = [note.ra.wrapping_sub(1), 3_600_000, 3_600_001, u32::MAX];
            note.rb = random.pick(&others);
            if random.chance(1, 2) {
                note.ra = note.rb;
            }
        }
        6 => note.due = random.pick(&[0, 3_600_000, 3_600_001, u32::MAX]),
        _ => break_waits(random, note, number as u32),
    }
}

fn break_waits(random: &mut Generator, note: &mut EditedNote, number: u32) {
    let below = number.saturating_sub(1);
    let before = below.saturating_sub(1);
    let wide = too_wide(random, below, 1);
    let wide_before = too_wide(random, before, 1);
    let waits = match random.below(14) {
        0 => vec![number],
        1 => vec![number + 1],
        2 => vec![below, below],
        3 => vec![below, before],
        4 => vec![255],
        5 => vec![u32::MAX],
        6 => vec![before, below, number],
        7 => vec![before, u32::MAX],
        // Four, the most there may be.
        8 => (0..4).map(|back| number.saturating_sub(4 - back)).collect(),
        // Cut to a byte, these would be right where there are two strokes before.
        9 => vec![wide],
        10 => vec![before, wide],
        11 => vec![wide_before, below],
        12 => vec![wide_before, wide],
        // The last one that is looked at.
        _ => vec![0, 1, 2, wide],
    };
    note.wait_count = waits.len() as u32;
    note.waits[..waits.len()].copy_from_slice(&waits);
}
