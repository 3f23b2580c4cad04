//! Files with something wrong, or at a limit and still right.

use super::rested::{cut_in_rest, damage_rest};
use super::shifted::damage_shift;
use super::valid::{self, Shape};
use super::{Generator, Versioned};
use crate::draft::{Draft, DraftBell, DraftNote, correct_count};

/// Enough of everything to damage, and cheap to walk where the damage does no harm.
const SHAPE: Shape = Shape {
    strokes: (0, 10),
    drivers: (1, 8),
    bells: (1, 8),
    ranks: 5,
    hold: (1, 20),
    hold_spread: 5,
    gap: (0, 15),
    call_spread: 5,
    waiting: 50,
};

pub(super) fn damaged(random: &mut Generator, versioned: Versioned) -> Vec<u8> {
    let draft = valid::draft(random, &SHAPE);
    let draft = versioned.both(random, draft);
    harmed(random, draft)
}

/// The draft with one field or two at or beyond a limit, or its file with bytes disturbed.
pub(super) fn harmed(random: &mut Generator, mut draft: Draft) -> Vec<u8> {
    let has_rests = draft.another_rest().is_some();
    if has_rests && random.chance(1, 10) {
        return cut_in_rest(random, &draft);
    }
    if random.chance(1, 3) {
        let mut file = draft.bytes();
        disturb(random, &mut file, has_rests);
        return file;
    }
    // Two damages at once show which rule comes first.
    let damages = random.pick(&[1, 1, 2, 3]);
    for _ in 0..damages {
        damage(random, &mut draft);
    }
    let mut file = draft.bytes();
    if random.chance(1, 20) {
        disturb(random, &mut file, has_rests);
    } else if draft.shift.is_some() && random.chance(1, 5) {
        // A rule of the head may be broken, and nothing follows.
        file.truncate(random.range(6, 8) as usize);
        correct_count(&mut file, 0);
    }
    file
}

fn damage(random: &mut Generator, draft: &mut Draft) {
    let has_rests = draft.another_rest().is_some();
    if has_rests && random.chance(1, 4) {
        return damage_rest(random, draft);
    }
    if draft.shift.is_some() && random.chance(1, 3) {
        return damage_shift(random, draft);
    }
    let kinds = if has_rests { 15 } else { 14 };
    match random.below(kinds) {
        // The next version is twice as frequent: one that there is, or in version 3 one that there is not yet.
        0 if has_rests => draft.version = random.pick(&[0, 4, 4, 255]),
        0 => draft.version = random.pick(&[0, 3, 3, 255]),
        1 => draft.count_error = random.pick(&[1, u32::MAX, 5, 256, 65_536, 1 << 24]),
        2 => draft.drivers = random.pick(&[0, 1, 8, 9, 255]),
        3 => damage_bell_count(random, draft),
        4..=6 => damage_bell(random, draft),
        7 | 8 => damage_stroke_count(random, draft),
        9 => {
            draft.remaining = (0..random.range(1, 3))
                .map(|_| random.below(256) as u8)
                .collect()
        }
        _ if draft.notes.is_empty() => {}
        // Both 11 and 10, which is rare otherwise.
        14 => {
            let number = random.below(draft.notes.len() as u64) as usize;
            let note = &mut draft.notes[number];
            (note.key, note.ra) = (255, note.rb.wrapping_add(1));
        }
        _ => {
            let number = random.below(draft.notes.len() as u64) as u8;
            damage_note(random, draft, number);
        }
    }
}

fn damage_bell_count(random: &mut Generator, draft: &mut Draft) {
    let count = draft.bell_count;
    if random.chance(1, 2) {
        draft.bell_count =
            random.pick(&[0, count.wrapping_sub(1), count.wrapping_add(1), 96, 97, 255]);
        return;
    }
    // So many bells in truth: 96 may be right, 97 is one too many.
    let wanted = random.pick(&[95, 96, 97]);
    for key in 12..=119 {
        let sounds = |bell: &DraftBell| i16::from(bell.written) + i16::from(bell.transposition);
        if draft.bells.len() < wanted && draft.bells.iter().all(|bell| sounds(bell) != key) {
            draft.bells.push(DraftBell {
                written: key as u8,
                transposition: 0,
                ca: 1,
                cb: 2,
                rest: draft.another_rest(),
                rank: 3,
            });
        }
    }
    draft.bell_count = draft.bells.len() as u8;
}

fn damage_bell(random: &mut Generator, draft: &mut Draft) {
    let count = draft.bells.len() as u64;
    let other = draft.bells[random.below(count) as usize].clone();
    let bell = &mut draft.bells[random.below(count) as usize];
    match random.below(9) {
        0 => bell.written = random.pick(&[0, 11, 12, 119, 120, 255]),
        1 => bell.transposition = random.pick(&[-128, -25, -24, 24, 25, 127]),
        // The sounding key at and beyond its limits, the two fields within theirs.
        2 => {
            let (written, transposition) = random.pick(&[
                (12, 0),
                (12, -1),
                (35, -24),
                (36, -24),
                (119, 0),
                (119, 1),
                (95, 24),
                (96, 24),
            ]);
            bell.written = written;
            bell.transposition = transposition;
        }
        3 => bell.ca = random.pick(&[0, 1, bell.cb, bell.cb.wrapping_add(1), 5000, 5001, 65_535]),
        4 => bell.cb = random.pick(&[0, bell.ca, bell.ca.saturating_sub(1), 5000, 5001, 65_535]),
        5 => {
            bell.ca = 5000;
            bell.cb = random.pick(&[5000, 5001, 4999]);
        }
        // The same sounding key; a doubled written key by itself would be right.
        _ => {
            let shift = random.pick(&[-1i8, 0, 1]);
            bell.written = other.written.wrapping_add_signed(shift);
            bell.transposition = other.transposition.wrapping_sub(shift);
        }
    }
}

fn damage_stroke_count(random: &mut Generator, draft: &mut Draft) {
    let count = draft.stroke_count;
    if random.chance(1, 2) {
        draft.stroke_count =
            random.pick(&[0, count.wrapping_sub(1), count.wrapping_add(1), 64, 65, 255]);
        return;
    }
    // So many notes in truth: 64 may be right, 65 is one too many.
    let wanted = random.pick(&[63, 64, 65]);
    let bell = &draft.bells[0];
    let sounding = bell.written.wrapping_add_signed(bell.transposition);
    let key = sounding.wrapping_sub(draft.shift.unwrap_or(0) as u8);
    while draft.notes.len() < wanted {
        draft
            .notes
            .push(DraftNote::new(key, 0, 0, 3_600_000, vec![]));
    }
    draft.stroke_count = draft.notes.len() as u8;
}

pub(super) fn damage_note(random: &mut Generator, draft: &mut Draft, number: u8) {
    let bell = draft.bells[random.below(draft.bells.len() as u64) as usize].clone();
    let note = &mut draft.notes[usize::from(number)];
    match random.below(7) {
        0 => {
            note.length = random.pick(&[
                0,
                12,
                13,
                17,
                18,
                255,
                note.length.wrapping_sub(1),
                note.length.wrapping_add(1),
            ]);
        }
        1 => {
            note.key = random.pick(&[
                0,
                11,
                12,
                119,
                120,
                255,
                note.key.wrapping_add(1),
                bell.written,
            ]);
        }
        2 => note.ra = random.pick(&[note.rb, note.rb.wrapping_add(1), 3_600_001, u32::MAX]),
        3 => {
            note.rb = random.pick(&[note.ra.wrapping_sub(1), 3_600_000, 3_600_001, u32::MAX]);
            if random.chance(1, 2) {
                note.ra = note.rb;
            }
        }
        4 => note.due = random.pick(&[0, 3_600_000, 3_600_001, u32::MAX]),
        _ => damage_waits(random, note, number),
    }
}

fn damage_waits(random: &mut Generator, note: &mut DraftNote, number: u8) {
    let below = number.saturating_sub(1);
    note.waits = match random.below(8) {
        0 => vec![number],
        1 => vec![number.saturating_add(1)],
        2 => vec![below, below],
        3 => vec![below, below.saturating_sub(1)],
        4 => vec![255],
        5 => vec![below.saturating_sub(1), below, number],
        // Four, the most there may be, and five.
        6 => (0..4).map(|back| number.saturating_sub(4 - back)).collect(),
        _ => (0..5).map(|back| number.saturating_sub(5 - back)).collect(),
    };
    note.length = 13 + note.waits.len() as u8;
}

/// Changes, cuts, adds, inserts or takes out bytes; the count is mostly put right.
fn disturb(random: &mut Generator, file: &mut Vec<u8>, has_rests: bool) {
    let any = |random: &mut Generator, limit: usize| random.below(limit as u64) as usize;
    match random.below(7) {
        0 => {
            for _ in 0..random.range(1, 3) {
                let at = any(random, file.len());
                file[at] = random.below(256) as u8;
            }
            return;
        }
        1 => {
            let at = any(random, file.len());
            file[at] ^= 1 << random.below(8);
            return;
        }
        2 => {
            let head = if file[0] == 2 || has_rests { 8 } else { 7 };
            file.truncate(any(random, head).min(file.len()));
        }
        3 => file.truncate(any(random, file.len())),
        4 => {
            for _ in 0..random.range(1, 5) {
                file.push(random.below(256) as u8);
            }
        }
        5 => file.insert(any(random, file.len() - 5) + 5, random.below(256) as u8),
        _ => drop(file.remove(any(random, file.len() - 5) + 5)),
    }
    if random.chance(3, 4) {
        correct_count(file, 0);
    }
}
