//! Phrases whose strokes have nothing uncertain: one call moment and one hold each, so that a phrase has one run. Due times are
//! drawn around the ends of that run: met, met exactly, or missed, by one stroke or by several. Bells that no stroke strikes may
//! have any hold.

use std::cmp::Ordering;

use super::valid::{self, Shape};
use super::{Generator, Versioned};
use crate::dispatch::all_scenarios;
use crate::draft::Draft;
use crate::events::by_events;
use crate::playing::Played;
use crate::reading::{LATEST_TIME, LONGEST_HOLD, read};

const SHAPES: [Shape; 9] = [
    // Few of everything: ranks, calls and ends are often equal.
    Shape {
        strokes: (0, 6),
        drivers: (1, 3),
        bells: (1, 5),
        ranks: 2,
        hold: (1, 3),
        hold_spread: 0,
        gap: (0, 1),
        call_spread: 0,
        waiting: 30,
    },
    // All at once: rank and number alone decide, for many rounds.
    Shape {
        strokes: (4, 64),
        drivers: (1, 8),
        bells: (4, 64),
        ranks: 3,
        hold: (1, 6),
        hold_spread: 0,
        gap: (0, 0),
        call_spread: 0,
        waiting: 15,
    },
    // More calls than the drivers can take.
    Shape {
        strokes: (0, 64),
        drivers: (1, 8),
        bells: (1, 40),
        ranks: 8,
        hold: (1, 30),
        hold_spread: 0,
        gap: (0, 4),
        call_spread: 0,
        waiting: 40,
    },
    // Time between the calls, in which drivers are free.
    Shape {
        strokes: (0, 64),
        drivers: (1, 8),
        bells: (1, 60),
        ranks: 4,
        hold: (1, 20),
        hold_spread: 0,
        gap: (0, 40),
        call_spread: 0,
        waiting: 30,
    },
    // One bell or two: chains of strokes of the same bell.
    Shape {
        strokes: (2, 64),
        drivers: (1, 4),
        bells: (1, 2),
        ranks: 2,
        hold: (1, 15),
        hold_spread: 0,
        gap: (0, 10),
        call_spread: 0,
        waiting: 30,
    },
    // One hold and one rank: drivers are freed together, and only numbers decide.
    Shape {
        strokes: (3, 40),
        drivers: (2, 8),
        bells: (3, 40),
        ranks: 1,
        hold: (3, 3),
        hold_spread: 0,
        gap: (0, 3),
        call_spread: 0,
        waiting: 20,
    },
    // As many strokes and drivers as there can be.
    Shape {
        strokes: (63, 64),
        drivers: (7, 8),
        bells: (20, 96),
        ranks: 256,
        hold: (1, 50),
        hold_spread: 0,
        gap: (0, 5),
        call_spread: 0,
        waiting: 30,
    },
    // Listed chains on many bells.
    Shape {
        strokes: (8, 64),
        drivers: (1, 8),
        bells: (20, 96),
        ranks: 5,
        hold: (1, 10),
        hold_spread: 0,
        gap: (0, 3),
        call_spread: 0,
        waiting: 95,
    },
    // Long holds.
    Shape {
        strokes: (1, 30),
        drivers: (1, 8),
        bells: (1, 30),
        ranks: 4,
        hold: (1, LONGEST_HOLD),
        hold_spread: 0,
        gap: (0, 5_000),
        call_spread: 0,
        waiting: 30,
    },
];

/// A file that the reader takes.
pub(super) fn certain(random: &mut Generator, versioned: Versioned) -> Vec<u8> {
    let shape = random.pick(&SHAPES);
    let draft = valid::draft(random, &shape);
    let mut draft = (versioned.rested)(random, draft);
    if random.chance(1, 10) {
        call_late(random, &mut draft);
    }
    if random.chance(1, 2) {
        loosen_silent_bells(random, &mut draft);
    }
    let played = played(&draft);
    set_dues(random, &mut draft, &played);
    (versioned.shifted)(random, draft).bytes()
}

/// Moves all calls by as much, so that the last is at or near the latest moment there is: no due time is late enough for an end
/// after that.
fn call_late(random: &mut Generator, draft: &mut Draft) {
    let last = draft.notes.iter().map(|note| note.ra).max().unwrap_or(0);
    let target = LATEST_TIME as u32 - random.below(300) as u32;
    let by = target.saturating_sub(last);
    for note in &mut draft.notes {
        note.ra += by;
        note.rb += by;
    }
}

/// Bells that no note strikes get holds that are uncertain.
fn loosen_silent_bells(random: &mut Generator, draft: &mut Draft) {
    for bell in &mut draft.bells {
        let key = bell.written.wrapping_add_signed(bell.transposition);
        if draft.notes.iter().all(|note| note.key != key) {
            bell.cb = random.range(bell.ca.into(), LONGEST_HOLD) as u16;
        }
    }
}

/// The one run; due times mean nothing to it.
fn played(draft: &Draft) -> Played {
    let phrase = read(&draft.bytes()).expect("the draft is valid");
    let scenario = all_scenarios(&phrase).next();
    by_events(&phrase, &scenario.expect("there is one at least"))
}

fn set_dues(random: &mut Generator, draft: &mut Draft, played: &Played) {
    let slack = random.pick(&[0, 1, 1, 2, 50, LATEST_TIME]);
    for (note, end) in draft.notes.iter_mut().zip(played.ends) {
        note.due = (end + random.range(0, slack)).min(LATEST_TIME) as u32;
    }
    for stroke in late_strokes(random, &played.starts[..draft.notes.len()]) {
        let (call, end) = (draft.notes[stroke].ra.into(), played.ends[stroke]);
        draft.notes[stroke].due = missed(random, call, end).min(LATEST_TIME) as u32;
    }
}

/// Strokes to miss their due times, by their starts: none in every second phrase, else one, several, a share of all, or most of
/// those that start at one moment, with or without later ones.
fn late_strokes(random: &mut Generator, starts: &[u64]) -> Vec<usize> {
    let count = starts.len();
    if count == 0 {
        return Vec::new();
    }
    let any = |random: &mut Generator| random.below(count as u64) as usize;
    match random.below(16) {
        0..=7 => Vec::new(),
        8 => vec![any(random)],
        9 | 10 => (0..random.range(2, 8)).map(|_| any(random)).collect(),
        11 => {
            let of_a_hundred = random.pick(&[10, 40, 80, 100]);
            (0..count)
                .filter(|_| random.chance(of_a_hundred, 100))
                .collect()
        }
        _ => {
            let moment = shared_moment(random, starts);
            let later = random.pick(&[0, 0, 10, 50]);
            let is_late = |&stroke: &usize| match starts[stroke].cmp(&moment) {
                Ordering::Less => false,
                Ordering::Equal => random.chance(4, 5),
                Ordering::Greater => random.chance(later, 100),
            };
            (0..count).filter(is_late).collect()
        }
    }
}

/// A moment at which several strokes start, if there is one, else one at which any starts.
fn shared_moment(random: &mut Generator, starts: &[u64]) -> u64 {
    let is_shared = |&start: &u64| starts.iter().filter(|&&other| other == start).count() > 1;
    let shared: Vec<u64> = starts.iter().copied().filter(is_shared).collect();
    random.pick(if shared.is_empty() { starts } else { &shared })
}

/// A due time before the end: mostly just before, else anywhere, or not after the call.
fn missed(random: &mut Generator, call: u64, end: u64) -> u64 {
    match random.below(8) {
        0..=4 => end - 1,
        5 => end - 2.min(end),
        6 => random.below(end),
        _ => random.range(0, call),
    }
}
