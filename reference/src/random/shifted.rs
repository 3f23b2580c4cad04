//! Phrases of version 2, made from drafts of version 1: the same bells are struck, by keys that a shift moves. The same of
//! version 3, made from drafts with rests.

use super::Generator;
use crate::draft::{Draft, DraftBell};
use crate::reading::{HIGHEST_KEY, LOWEST_KEY, MOST_BELLS, WIDEST_SHIFT};

/// The draft with any shift for which all keys can be written; 0 and the limits are frequent.
pub(super) fn shifted(random: &mut Generator, mut draft: Draft) -> Draft {
    let lowest_key = draft.notes.iter().map(|note| i64::from(note.key)).min();
    let most = lowest_key.map_or(WIDEST_SHIFT, |key| key.min(WIDEST_SHIFT));
    let shift = match random.below(8) {
        0 => -WIDEST_SHIFT,
        1 | 2 => {
            add_low_bell(&mut draft);
            most
        }
        3 => 0,
        _ => random.range(0, (most + WIDEST_SHIFT) as u64) as i64 - WIDEST_SHIFT,
    };
    let shifted = draft.shifted(shift as i8);
    shifted.expect("no key of the draft is below the shift, or far above it")
}

/// A bell as low as there can be one, which no note strikes. With a larger shift, its key could only be written below 0.
fn add_low_bell(draft: &mut Draft) {
    let is_free = |key: &i64| draft.bells.iter().all(|bell| sounding(bell) != *key);
    let key = (LOWEST_KEY..=HIGHEST_KEY).find(is_free);
    if let Some(key) = key.filter(|_| draft.bells.len() < MOST_BELLS as usize) {
        draft.bells.push(DraftBell {
            written: key as u8,
            transposition: 0,
            ca: 1,
            cb: 2,
            rest: draft.another_rest(),
            rank: 3,
        });
        draft.bell_count += 1;
    }
}

/// The shift at a limit, beyond it or another; a head of one version before a body of the other; or a note's key.
pub(super) fn damage_shift(random: &mut Generator, draft: &mut Draft) {
    match random.below(12) {
        0..=2 => {
            draft.shift = Some(random.pick(&[-128, -26, -25, -24, 24, 25, 26, 127]));
            damage_beside(random, draft);
        }
        3 => draft.shift = Some(random.below(256) as i8),
        // But for its version, a file of the other one.
        4 => take_back(draft),
        5 => draft.version = 1,
        _ => damage_key(random, draft),
    }
}

/// Now and then one of the two fields that stand beside the shift, which shows what comes first.
fn damage_beside(random: &mut Generator, draft: &mut Draft) {
    match random.below(8) {
        0 => draft.drivers = random.pick(&[0, 9]),
        1 => draft.bell_count = random.pick(&[0, 97]),
        _ => {}
    }
}

/// The keys as they sound, and no byte for the shift.
fn take_back(draft: &mut Draft) {
    let shift = draft.shift.take().unwrap_or(0);
    for note in &mut draft.notes {
        note.key = note.key.wrapping_add_signed(shift);
    }
}

fn damage_key(random: &mut Generator, draft: &mut Draft) {
    let bells: Vec<i64> = draft.bells.iter().map(sounding).collect();
    let key = key_near(random, &bells, draft.shift.unwrap_or(0).into());
    if !draft.notes.is_empty() {
        let note = random.below(draft.notes.len() as u64) as usize;
        draft.notes[note].key = key as u8;
    }
}

/// A key to write for one of the bells that sound for these keys, often the lowest: the one that finds it, even if it is below
/// 0; one that finds it only by a wrong sum; or one whose sum is at or beyond the limits of all bells.
pub(super) fn key_near(random: &mut Generator, bells: &[i64], shift: i64) -> i64 {
    let lowest = bells.iter().copied().min();
    let sounding = lowest.map_or(0, |lowest| {
        let any = random.pick(bells);
        random.pick(&[lowest, any])
    });
    match random.below(6) {
        0 => sounding,
        1 => sounding + shift,
        2 => random.pick(&[11, 12, 119, 120]) - shift,
        _ => sounding - shift,
    }
}

/// The key that a bell sounds for, in its range or not.
pub(super) fn sounding(bell: &DraftBell) -> i64 {
    i64::from(bell.written) + i64::from(bell.transposition)
}
