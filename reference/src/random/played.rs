//! Playings of phrases of all kinds: in range, with values out of range, and damaged; and the phrase's file may be damaged
//! too.

use super::edited::{longest, row};
use super::{Generator, Versioned, damaged, large, scenario, valid};
use crate::dispatch::Scenario;
use crate::draft::{Draft, correct_count, playing_bytes};
use crate::range::Range;
use crate::reading::{Phrase, read};
use crate::writing::EditedPhrase;

/// A phrase file and a playing for it.
#[derive(Clone, Debug)]
pub struct PlayedCase {
    pub file: Vec<u8>,
    pub playing: Vec<u8>,
}

pub(super) fn played(random: &mut Generator, versioned: Versioned) -> PlayedCase {
    let file = any_file(random, versioned);
    let Ok(phrase) = read(&file) else {
        let playing = for_any_phrase(random);
        return PlayedCase { file, playing };
    };
    let playing = playing(random, &phrase);
    // Damaged now, the phrase has a playing that was for the sound one: reading refuses first, or ranges have moved.
    let file = if random.chance(1, 4) {
        harmed(random, &phrase)
    } else {
        file
    };
    PlayedCase { file, playing }
}

/// Valid but for some large ones. Those that nothing is walked for are the quickest to draw; what the check would say of
/// them does not matter here.
fn any_file(random: &mut Generator, versioned: Versioned) -> Vec<u8> {
    let draft = match random.below(40) {
        0 => return large::large(random, versioned).file,
        1 => longest(random),
        2..=16 => return valid::valid(random, versioned),
        _ => valid::unwalked(random),
    };
    versioned.both(random, draft).bytes()
}

fn harmed(random: &mut Generator, phrase: &Phrase) -> Vec<u8> {
    let draft = Draft::of(&EditedPhrase::from(phrase)).expect("what was read fits its bytes");
    damaged::harmed(random, draft)
}

fn playing(random: &mut Generator, phrase: &Phrase) -> Vec<u8> {
    let mut scenario = scenario(random, phrase);
    let (out_of_range, is_damaged) = match random.below(12) {
        0..=6 => (0, false),
        7 | 8 => (1, false),
        // Several show which stroke is named.
        9 => (random.range(2, 8), false),
        10 => (0, true),
        _ => (random.range(0, 2), true),
    };
    if !phrase.strokes.is_empty() {
        for _ in 0..out_of_range {
            move_out(random, phrase, &mut scenario);
        }
    }
    if is_damaged {
        damaged_playing(random, &scenario)
    } else {
        playing_bytes(&scenario)
    }
}

/// One value of one stroke out of its range.
fn move_out(random: &mut Generator, phrase: &Phrase, scenario: &mut Scenario) {
    let number = row(random, phrase.strokes.len());
    let stroke = &phrase.strokes[number];
    if random.chance(1, 2) {
        let call = &mut scenario.calls[number];
        *call = outside(random, stroke.call, *call, u32::MAX.into());
    } else {
        let hold = &mut scenario.holds[number];
        *hold = outside(random, stroke.hold, *hold, u16::MAX.into());
    }
}

/// Just below or above the range; or far away, but for the widest ranges, with low bytes that are in it.
fn outside(random: &mut Generator, range: Range, value: u64, greatest: u64) -> u64 {
    match random.below(8) {
        0..=2 if range.low > 0 => range.low - 1,
        0..=5 => range.high + 1,
        6 => random.pick(&[0, greatest]),
        _ => {
            let above = random.pick(&[1 << 8, 1 << 12, 1 << 16, 1 << 24, 1 << 31]);
            (value + above).min(greatest)
        }
    }
}

/// Version, count or the number of strokes wrong, now and then more than one of them.
fn damaged_playing(random: &mut Generator, scenario: &Scenario) -> Vec<u8> {
    let mut playing = playing_bytes(scenario);
    for _ in 0..random.pick(&[1, 1, 1, 2]) {
        damage(random, &mut playing);
    }
    playing
}

fn damage(random: &mut Generator, playing: &mut Vec<u8>) {
    let length = playing.len() as u64;
    match random.below(10) {
        0 => playing.clear(),
        1 => playing.truncate(random.range(1, 4) as usize),
        // Cut anywhere, often by one byte.
        2 => playing.truncate(length.saturating_sub(1) as usize),
        3 => playing.truncate(random.below(length + 1) as usize),
        // A stroke too few, a stroke too many.
        4 => playing.truncate(length.saturating_sub(6) as usize),
        5 => playing.extend(another_stroke(playing)),
        6 => (0..random.range(1, 7)).for_each(|_| playing.push(random.below(256) as u8)),
        7 => {
            if let Some(version) = playing.first_mut() {
                *version = random.pick(&[0, 2, 3, 129, 255]);
            }
            return;
        }
        _ => return correct_count(playing, wrong_count(random)),
    }
    // Put right, so that the number of strokes alone is wrong; or left, as the count of the phrase's strokes.
    if random.chance(2, 3) {
        correct_count(playing, 0);
    }
}

/// What to add to the count: one, a stroke, less than nothing, or a byte above.
fn wrong_count(random: &mut Generator) -> u32 {
    let less = |by: u32| by.wrapping_neg();
    random.pick(&[1, less(1), 6, less(6), 5, 256, 65_536, 1 << 24, 1 << 31])
}

/// The last stroke once more, or what could be the first one.
fn another_stroke(playing: &[u8]) -> [u8; 6] {
    match playing.last_chunk() {
        Some(&last) if playing.len() > 10 => last,
        _ => [0, 0, 0, 0, 0, 1],
    }
}

/// Sound in itself, or damaged: the phrase is not known.
fn for_any_phrase(random: &mut Generator) -> Vec<u8> {
    let strokes = random.below(12);
    let scenario = Scenario {
        calls: (0..strokes).map(|_| random.below(100)).collect(),
        holds: (0..strokes).map(|_| random.range(1, 20)).collect(),
    };
    if random.chance(1, 3) {
        damaged_playing(random, &scenario)
    } else {
        playing_bytes(&scenario)
    }
}
