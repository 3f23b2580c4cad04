//! Phrases of version 3, made from drafts of version 1: bells with rests, struck often, and waits that strokes share with
//! others of the same bell, so that rests decide verdicts, ends and the number of states. Also files with rests that are
//! wrong, cut or missing.

use super::Generator;
use super::shifted::sounding;
use super::valid::{self, TINY};
use crate::draft::{Draft, DraftNote, correct_count};
use crate::layout::Layout;
use crate::reading::{LONGEST_REST, MOST_WAITS};

/// The shortest and the longest rest of a phrase's bells. Rests like the holds are frequent; long ones leave little to decide.
const RESTS: [(u64, u64); 10] = [
    (0, 0),
    (0, 2),
    (0, 4),
    (1, 8),
    (0, 20),
    (0, 20),
    (1, 60),
    (0, 300),
    (0, LONGEST_REST),
    (LONGEST_REST, LONGEST_REST),
];

/// The draft with rests; often on few bells or few drivers, and with waits that a rest is added to.
pub(super) fn rested(random: &mut Generator, mut draft: Draft) -> Draft {
    if random.chance(1, 2) {
        strike_few_bells(random, &mut draft, 6);
    }
    if random.chance(1, 2) {
        draft.drivers = random.pick(&[1, 1, 2, 3]);
    }
    if random.chance(2, 3) {
        list_more(random, &mut draft);
    }
    let (shortest, longest) = random.pick(&RESTS);
    draft.rested(|| {
        // Bells without a rest beside others that have one.
        if random.chance(1, 6) {
            0
        } else {
            random.range(shortest, longest) as u16
        }
    })
}

/// A draft of few strokes, narrow ranges and short rests on up to three bells: every scenario can be tried.
pub fn small_rested(random: &mut Generator) -> Draft {
    let mut draft = valid::draft(random, &TINY);
    strike_few_bells(random, &mut draft, 3);
    draft.drivers = random.pick(&[1, 1, 2, 3]);
    list_more(random, &mut draft);
    draft.rested(|| random.pick(&[0, 1, 2, 3, 5]))
}

/// Moves all notes to so many bells at most; the others are there and stay silent.
fn strike_few_bells(random: &mut Generator, draft: &mut Draft, most: u64) {
    let struck = random.range(1, most.min(draft.bells.len() as u64));
    for note in &mut draft.notes {
        let bell = &draft.bells[random.below(struck) as usize];
        note.key = sounding(bell) as u8;
    }
}

/// About every second note lists one more stroke, where there is one: its bell's nearest earlier stroke, one before that, or the
/// nearest earlier one of the bell that a note near it strikes.
fn list_more(random: &mut Generator, draft: &mut Draft) {
    for number in 0..draft.notes.len() {
        if random.chance(1, 2) {
            continue;
        }
        let listed = match random.below(6) {
            0 => earlier(draft, number, number, 0),
            1 => earlier(draft, number, number, 1),
            _ => {
                let other = (number + random.range(0, 8) as usize).saturating_sub(4);
                earlier(draft, other.min(draft.notes.len() - 1), number, 0)
            }
        };
        if let Some(stroke) = listed {
            list(&mut draft.notes[number], stroke as u8);
        }
    }
}

/// Of the strokes before `limit` and before `number`, on the bell that note `number` strikes: the nearest, or with `back` one
/// further back.
fn earlier(draft: &Draft, number: usize, limit: usize, back: usize) -> Option<usize> {
    let key = draft.notes[number].key;
    let before = &draft.notes[..number.min(limit)];
    let same_bell = (before.iter().enumerate().rev()).filter(|(_, note)| note.key == key);
    same_bell.map(|(stroke, _)| stroke).nth(back)
}

/// Lists one more stroke, if the note does not list it, and not as many as it can.
fn list(note: &mut DraftNote, stroke: u8) {
    let mut waits = note.waits.clone();
    if !waits.contains(&stroke) && waits.len() < MOST_WAITS {
        waits.push(stroke);
        waits.sort_unstable();
        *note = DraftNote::new(note.key, note.ra, note.rb, note.due, waits);
    }
}

/// Rests at and beyond their limit, also with a low byte or a sign that would be right.
const AT_LIMITS: [u16; 8] = [4_999, 5_000, 5_001, 5_001, 5_256, 0x8000, 0xFF00, 0xFFFF];

/// A rest at a limit or beyond, by itself or beside a key that is doubled; bells of one version after the head of another;
/// or one bell without a rest among others.
pub(super) fn damage_rest(random: &mut Generator, draft: &mut Draft) {
    let count = draft.bells.len() as u64;
    let other = draft.bells[random.below(count) as usize].clone();
    let bell = &mut draft.bells[random.below(count) as usize];
    match random.below(10) {
        0..=3 => bell.rest = Some(random.pick(&AT_LIMITS)),
        // By its key 7, but 6 comes first.
        4 | 5 => {
            (bell.written, bell.transposition) = (other.written, other.transposition);
            bell.rest = Some(random.pick(&[5_000, 5_001, 5_001]));
        }
        6 => draft.bells.iter_mut().for_each(|bell| bell.rest = None),
        7 => bell.rest = None,
        8 => draft.version = 2,
        _ => draft.version = random.pick(&[1, 2]),
    }
}

/// The draft's file cut before, in or just after the rest of one of its bells.
pub(super) fn cut_in_rest(random: &mut Generator, draft: &Draft) -> Vec<u8> {
    let layout = Layout::of(3).expect("rests are of version 3");
    let bell = random.below(draft.bells.len() as u64) as usize;
    let in_bell = random.range(6, 8) as usize;
    let mut file = draft.bytes();
    file.truncate(layout.bells_at() + bell * layout.bell_bytes() + in_bell);
    correct_count(&mut file, 0);
    file
}
