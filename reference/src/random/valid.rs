//! Drafts of phrases that the reader takes, of many shapes.

use super::{Generator, Versioned};
use crate::check::HOST_WORDS;
use crate::draft::{Draft, DraftBell, DraftNote};
use crate::range::Range;
use crate::reading::{self, LATEST_TIME};
use crate::walk::{self, Outcome};

/// Limits within which a draft is drawn; pairs are smallest and largest.
#[derive(Clone, Copy, Debug)]
pub struct Shape {
    pub strokes: (u64, u64),
    pub drivers: (u64, u64),
    pub bells: (u64, u64),
    /// How many ranks there are; few make many equal ones.
    pub ranks: u64,
    /// ca, and how much cb may be above it.
    pub hold: (u64, u64),
    pub hold_spread: u64,
    /// From one call to the next, and how much rb may be above ra.
    pub gap: (u64, u64),
    pub call_spread: u64,
    /// Of a hundred notes, how many list waits.
    pub waiting: u64,
}

/// Few strokes and narrow ranges: every scenario can be tried.
pub const TINY: Shape = Shape {
    strokes: (1, 5),
    drivers: (1, 3),
    bells: (1, 5),
    ranks: 4,
    hold: (1, 4),
    hold_spread: 2,
    gap: (0, 2),
    call_spread: 2,
    waiting: 30,
};

const SHAPES: [Shape; 9] = [
    TINY,
    // Anything, small.
    Shape {
        strokes: (0, 12),
        drivers: (1, 8),
        bells: (1, 12),
        ranks: 256,
        hold: (1, 20),
        hold_spread: 10,
        gap: (0, 10),
        call_spread: 12,
        waiting: 40,
    },
    // Calls far enough apart that few orders are possible.
    Shape {
        strokes: (10, 64),
        drivers: (1, 8),
        bells: (5, 96),
        ranks: 10,
        hold: (5, 30),
        hold_spread: 6,
        gap: (8, 20),
        call_spread: 4,
        waiting: 20,
    },
    // All at once: many orders, many joins.
    Shape {
        strokes: (4, 14),
        drivers: (1, 8),
        bells: (4, 20),
        ranks: 3,
        hold: (1, 5),
        hold_spread: 3,
        gap: (0, 0),
        call_spread: 3,
        waiting: 10,
    },
    // One bell or two: long chains of the same bell.
    Shape {
        strokes: (5, 64),
        drivers: (1, 4),
        bells: (1, 2),
        ranks: 2,
        hold: (1, 15),
        hold_spread: 15,
        gap: (0, 10),
        call_spread: 20,
        waiting: 30,
    },
    // Listed chains on many bells.
    Shape {
        strokes: (8, 64),
        drivers: (1, 8),
        bells: (20, 96),
        ranks: 5,
        hold: (1, 40),
        hold_spread: 4,
        gap: (0, 6),
        call_spread: 6,
        waiting: 95,
    },
    // Clockwork: nothing uncertain.
    Shape {
        strokes: (0, 64),
        drivers: (1, 8),
        bells: (1, 40),
        ranks: 8,
        hold: (1, 30),
        hold_spread: 0,
        gap: (0, 15),
        call_spread: 0,
        waiting: 30,
    },
    // Uncertain calls and more strokes than any table takes.
    Shape {
        strokes: (20, 64),
        drivers: (1, 8),
        bells: (20, 96),
        ranks: 256,
        hold: (1, 50),
        hold_spread: 50,
        gap: (0, 3),
        call_spread: 30,
        waiting: 10,
    },
    // Long times, up to the limits.
    Shape {
        strokes: (1, 30),
        drivers: (1, 8),
        bells: (1, 30),
        ranks: 256,
        hold: (1, 5000),
        hold_spread: 4999,
        gap: (0, 200_000),
        call_spread: 50_000,
        waiting: 30,
    },
];

/// A valid file: loose, with dues drawn somewhere, or with dues tuned to the walk.
pub(super) fn valid(random: &mut Generator, versioned: Versioned) -> Vec<u8> {
    let shape = random.pick(&SHAPES);
    let draft = draft(random, &shape);
    let draft = (versioned.rested)(random, draft);
    let draft = with_some_dues(random, draft);
    (versioned.shifted)(random, draft).bytes()
}

/// A valid file of any shape, but with all or most strokes certainly called at 0. Candidates before which one of these
/// goes often have a thigh of 0, and so a latest start below zero.
pub fn at_zero(random: &mut Generator) -> Vec<u8> {
    let shape = random.pick(&SHAPES);
    let mut draft = draft(random, &shape);
    let of_a_hundred = random.pick(&[100, 100, 90, 60]);
    for note in &mut draft.notes {
        if random.chance(of_a_hundred, 100) {
            (note.ra, note.rb) = (0, 0);
        }
    }
    with_some_dues(random, draft).bytes()
}

fn with_some_dues(random: &mut Generator, draft: Draft) -> Draft {
    match random.below(4) {
        0 => draft,
        1 => with_drawn_dues(random, draft),
        _ => tuned(random, draft),
    }
}

/// A valid draft of any shape, dues drawn somewhere; nothing is walked for it.
pub(super) fn unwalked(random: &mut Generator) -> Draft {
    let shape = random.pick(&SHAPES);
    let draft = draft(random, &shape);
    with_drawn_dues(random, draft)
}

/// A draft of this shape, every due time the latest there is.
pub fn draft(random: &mut Generator, shape: &Shape) -> Draft {
    let range = |random: &mut Generator, (low, high)| random.range(low, high);
    let drivers = range(random, shape.drivers);
    let bell_count = range(random, shape.bells);
    let bells = draft_bells(random, shape, bell_count);
    let stroke_count = range(random, shape.strokes);

    let mut notes = Vec::new();
    let mut call = random.below(4);
    for number in 0..stroke_count {
        // Calls in file order, but now and then one is pulled forward.
        let ra = if random.chance(1, 10) {
            random.range(0, call)
        } else {
            call
        };
        let spread = random.range(0, shape.call_spread);
        let ra = ra.min(LATEST_TIME) as u32;
        let rb = (u64::from(ra) + spread).min(LATEST_TIME) as u32;
        let bell = &bells[random.below(bell_count) as usize];
        let key = (i16::from(bell.written) + i16::from(bell.transposition)) as u8;
        let waits = draft_waits(random, shape, number);
        notes.push(DraftNote::new(key, ra, rb, LATEST_TIME as u32, waits));
        call += range(random, shape.gap);
    }
    Draft::new(drivers as u8, bells, notes)
}

/// Bells with sounding keys of their own; written keys are doubled where that can be.
pub(super) fn draft_bells(random: &mut Generator, shape: &Shape, count: u64) -> Vec<DraftBell> {
    let mut free_keys: Vec<i16> = (12..=119).collect();
    let mut bells: Vec<DraftBell> = Vec::new();
    for _ in 0..count {
        let key = free_keys.swap_remove(random.below(free_keys.len() as u64) as usize);
        let fits = |written: i16| (12..=119).contains(&written) && (key - written).abs() <= 24;
        let doubled = bells
            .iter()
            .map(|bell| i16::from(bell.written))
            .find(|&written| fits(written))
            .filter(|_| random.chance(2, 5));
        let written = doubled.unwrap_or_else(|| {
            let drawn = key - random.range(0, 48) as i16 + 24;
            if fits(drawn) { drawn } else { key }
        });
        let ca = random.range(shape.hold.0, shape.hold.1).min(5000);
        let cb = (ca + random.range(0, shape.hold_spread)).min(5000);
        bells.push(DraftBell {
            written: written as u8,
            transposition: (key - written) as i8,
            ca: ca as u16,
            cb: cb as u16,
            rest: None,
            rank: random.below(shape.ranks) as u8,
        });
    }
    bells
}

/// Up to four waited-for numbers, mostly near ones.
fn draft_waits(random: &mut Generator, shape: &Shape, number: u64) -> Vec<u8> {
    let mut waits = Vec::new();
    if number > 0 && random.chance(shape.waiting, 100) {
        for _ in 0..random.range(1, 4) {
            let far = random.pick(&[3, 8, 64]).min(number);
            waits.push((number - random.range(1, far)) as u8);
        }
        waits.sort_unstable();
        waits.dedup();
    }
    waits
}

/// Dues somewhere after the calls, or, rarely, before them.
fn with_drawn_dues(random: &mut Generator, mut draft: Draft) -> Draft {
    let slack = random.pick(&[20, 200, 2_000, 100_000]);
    for note in &mut draft.notes {
        let due = u64::from(note.rb) + random.below(slack);
        note.due = due.min(LATEST_TIME) as u32;
        if random.chance(1, 300) {
            note.due = random.range(0, u64::from(note.ra)) as u32;
        }
    }
    draft
}

/// Dues at or just above the latest ends, half of the time one of them just below its own.
pub fn tuned(random: &mut Generator, mut draft: Draft) -> Draft {
    let Ok(phrase) = reading::read(&draft.bytes()) else {
        return draft;
    };
    let Outcome::Accepted { ends, .. } = walk::walk(&phrase, HOST_WORDS).outcome else {
        return draft;
    };
    due_at(random, &mut draft, &ends);
    if !ends.is_empty() && random.chance(1, 2) {
        let stroke = random.below(ends.len() as u64) as usize;
        draft.notes[stroke].due = ends[stroke].high as u32 - 1;
    }
    draft
}

/// Dues at the latest ends, or just above them.
pub(super) fn due_at(random: &mut Generator, draft: &mut Draft, ends: &[Range]) {
    for (note, ends) in draft.notes.iter_mut().zip(ends) {
        note.due = (ends.high + random.below(2)).min(LATEST_TIME) as u32;
    }
}

/// The fewest words with which a valid file is accepted, if `most` words are enough.
pub fn accepted_words(file: &[u8], most: usize) -> Option<usize> {
    let phrase = reading::read(file).ok()?;
    let walked = walk::walk(&phrase, most);
    matches!(walked.outcome, Outcome::Accepted { .. })
        .then(|| (2 * walk::words_per_state(&phrase) * walked.peak) as usize)
}
