//! Large phrases: as many strokes, drivers and bytes as there may be, and levels of up to
//! thousands of states, each with a table near what it takes.

use super::valid::{self, Shape};
use super::{Case, Generator, VERSION_1, Versioned, around, damaged};
use crate::check::HOST_WORDS;
use crate::draft::{Draft, DraftNote};
use crate::range::Range;
use crate::reading::{self, LATEST_TIME};
use crate::walk::{self, Outcome, Walk};

/// Levels of more states take too long to walk.
const MOST_STATES: u64 = 4_000;

/// Calls so uncertain that strokes of one group may go in any order: a state for every set.
const ANY_ORDER: Shape = Shape {
    strokes: (14, 64),
    drivers: (1, 8),
    bells: (14, 96),
    ranks: 3,
    hold: (1, 4),
    hold_spread: 3,
    gap: (0, 0),
    call_spread: 300,
    waiting: 40,
};

/// Calls no more uncertain than holds: some orders only, and some sets more than once.
const SOME_ORDERS: Shape = Shape {
    ranks: 256,
    hold: (1, 20),
    hold_spread: 12,
    call_spread: 50,
    ..ANY_ORDER
};

/// A draft, and what walking it takes.
struct Measured {
    draft: Draft,
    /// The words of two states, one in each half of the table.
    pair: u64,
    walk: Walk,
}

/// Large in all ways; levels have up to some hundreds of states.
pub fn large(random: &mut Generator, versioned: Versioned) -> Case {
    let (strokes, bells) = large_group(random);
    let Measured { draft, pair, walk } = measured(random, strokes, bells, versioned);
    let table_words = match random.below(8) {
        0..=3 => around(random, pair, walk.peak),
        4..=6 => {
            let states = random.range(1, walk.peak);
            around(random, pair, states)
        }
        _ => HOST_WORDS,
    };
    let draft = match walk.outcome {
        Outcome::Accepted { ends, .. } => with_dues(random, draft, &ends),
        _ => draft,
    };
    let draft = (versioned.shifted)(random, draft);
    let file = if random.chance(1, 4) {
        broken(random, draft)
    } else {
        draft.bytes()
    };
    Case { file, table_words }
}

/// Levels of thousands of states, which take long to walk.
pub fn widest(random: &mut Generator) -> Case {
    let strokes = random.range(13, 14);
    let Measured { draft, pair, walk } = measured(random, strokes, strokes, VERSION_1);
    let states = if random.chance(3, 4) {
        walk.peak
    } else {
        random.range(walk.peak / 2, walk.peak)
    };
    Case {
        file: draft.bytes(),
        table_words: around(random, pair, states),
    }
}

fn measured(random: &mut Generator, strokes: u64, bells: u64, versioned: Versioned) -> Measured {
    let draft = draft(random, strokes, bells);
    let draft = (versioned.rested)(random, draft);
    let phrase = reading::read(&draft.bytes()).expect("drawn phrases are valid");
    let pair = 2 * walk::words_per_state(&phrase);
    Measured {
        draft,
        pair,
        walk: walk::walk(&phrase, (pair * MOST_STATES) as usize),
    }
}

/// Strokes that are called at about the same time, when all before them have ended.
struct Group {
    strokes: u64,
    /// Fewer bells than strokes make chains.
    bells: u64,
    /// How far apart calls may be.
    spread: u64,
}

/// A large group of so many strokes on so many bells, among small ones: levels have many states where
/// it goes, and few elsewhere.
fn draft(random: &mut Generator, strokes: u64, bells: u64) -> Draft {
    let shape = random.pick(&[ANY_ORDER, ANY_ORDER, SOME_ORDERS]);
    let longest = random.chance(1, 4);
    let most_or_any = |random: &mut Generator, times: u64, (low, most): (u64, u64)| {
        if longest || random.chance(times, 4) {
            most
        } else {
            random.range(low, most)
        }
    };
    let stroke_count = most_or_any(random, 3, shape.strokes);
    let drivers = most_or_any(random, 2, shape.drivers);
    let bell_count = most_or_any(random, 1, shape.bells);
    let mut draft = Draft::new(
        drivers as u8,
        valid::draft_bells(random, &shape, bell_count),
        Vec::new(),
    );
    draft.stroke_count = stroke_count as u8;
    let waiting = if longest { 100 } else { shape.waiting };
    let mut call = 0;
    let large = Group {
        strokes: strokes.min(stroke_count),
        bells,
        spread: shape.call_spread,
    };
    for group in groups(random, stroke_count, large) {
        call = add_group(random, &mut draft, &group, waiting, call);
    }
    draft
}

/// The large group, mostly the last, among small ones.
fn groups(random: &mut Generator, strokes: u64, large: Group) -> Vec<Group> {
    let others = strokes - large.strokes;
    let before = if random.chance(2, 3) {
        others
    } else {
        random.range(0, others)
    };
    let most = random.pick(&[1, 1, 1, 3]);
    let mut groups = small_groups(random, before, most);
    groups.push(large);
    groups.extend(small_groups(random, others - before, most));
    groups
}

/// Strokes and bells of a large group: mostly each stroke on a bell of its own, else chains. The more
/// states these make, the longer they take, and the rarer they are.
fn large_group(random: &mut Generator) -> (u64, u64) {
    let strokes = match random.below(100) {
        0..=1 => 12,
        2..=5 => 11,
        6..=14 => 10,
        15..=80 => random.range(2, 9),
        _ => return (random.range(8, 24), random.range(2, 4)),
    };
    (strokes, strokes)
}

fn small_groups(random: &mut Generator, strokes: u64, most: u64) -> Vec<Group> {
    let mut groups = Vec::new();
    let mut left = strokes;
    while left > 0 {
        let strokes = random.range(1, most).min(left);
        left -= strokes;
        groups.push(Group {
            strokes,
            bells: strokes,
            spread: 8,
        });
    }
    groups
}

/// Adds the group's notes; gives the time at which all of them have ended.
fn add_group(
    random: &mut Generator,
    draft: &mut Draft,
    group: &Group,
    waiting: u64,
    call: u64,
) -> u64 {
    let first = draft.notes.len() as u64;
    let bells = distinct(random, draft.bells.len() as u64, group.bells);
    let (mut last_call, mut hold) = (call, 0);
    for number in 0..group.strokes {
        let bell = if group.bells < group.strokes {
            random.pick(&bells)
        } else {
            bells[number as usize]
        };
        let bell = &draft.bells[bell as usize];
        let key = bell.written.wrapping_add_signed(bell.transposition);
        let ra = call + random.range(0, group.spread / 4);
        let rb = call + random.range(group.spread / 2, group.spread);
        let waits = waits_before(random, waiting, first, first + number);
        last_call = last_call.max(rb);
        hold += u64::from(bell.cb);
        let due = LATEST_TIME as u32;
        (draft.notes).push(DraftNote::new(key, ra as u32, rb as u32, due, waits));
    }
    last_call + hold
}

/// So many different numbers below `limit`, in any order.
pub(super) fn distinct(random: &mut Generator, limit: u64, count: u64) -> Vec<u64> {
    let mut numbers: Vec<u64> = (0..limit).collect();
    (0..count)
        .map(|_| numbers.swap_remove(random.below(numbers.len() as u64) as usize))
        .collect()
}

/// Waits of a stroke whose group begins at `first`: for strokes before the group, which leaves the
/// group's own order free. Where all strokes wait, each lists as many as it can, up to four.
fn waits_before(random: &mut Generator, waiting: u64, first: u64, number: u64) -> Vec<u8> {
    if !random.chance(waiting, 100) {
        return Vec::new();
    }
    let (limit, count) = match waiting {
        100 if first < 4 => (number, 4),
        100 => (first, 4),
        _ => (first, random.range(1, 4)),
    };
    let mut waits = distinct(random, limit, count.min(limit));
    waits.sort_unstable();
    waits.into_iter().map(|wait| wait as u8).collect()
}

/// Dues as they are, at the latest ends, or one, often one of the last, just below its own.
fn with_dues(random: &mut Generator, mut draft: Draft, ends: &[Range]) -> Draft {
    let late = match random.below(4) {
        0 => return draft,
        1 => None,
        _ if random.chance(1, 2) => Some(random.below(ends.len() as u64)),
        _ => Some(ends.len() as u64 - random.range(1, 6)),
    };
    valid::due_at(random, &mut draft, ends);
    if let Some(stroke) = late {
        draft.notes[stroke as usize].due = ends[stroke as usize].high as u32 - 1;
    }
    draft
}

/// Something wrong: in the last note, in all first notes, or anywhere.
fn broken(random: &mut Generator, mut draft: Draft) -> Vec<u8> {
    match random.below(8) {
        0..=2 => {
            let last = draft.notes.len() as u8 - 1;
            damaged::damage_note(random, &mut draft, last);
            draft.bytes()
        }
        // As long as notes get; but there are no four strokes before these.
        3 => {
            for note in draft.notes.iter_mut().take(4) {
                *note = DraftNote::new(note.key, note.ra, note.rb, note.due, vec![0, 1, 2, 3]);
            }
            draft.bytes()
        }
        _ => damaged::harmed(random, draft),
    }
}
