//! Random phrase files from a seed: valid ones of many shapes, ones with calls at 0, damaged ones, large ones, and ones with
//! nothing uncertain in their strokes; random phrases to write; and random playings. All of them but those with calls at 0 and
//! the widest are there of versions 1, 2 and 3.

mod certain;
mod damaged;
mod edited;
mod generator;
mod large;
mod played;
mod rested;
mod shifted;
mod valid;

pub use edited::{EditedCase, longest};
pub use generator::Generator;
pub use played::PlayedCase;
pub use rested::small_rested;
pub use valid::{Shape, TINY, accepted_words, at_zero, draft, tuned};

use crate::check::HOST_WORDS;
use crate::dispatch::Scenario;
use crate::draft::Draft;
use crate::reading::{self, Phrase};
use crate::walk;
use certain::certain;
use edited::edited;
use played::played;

/// What `tests/compare.rs` takes unless told otherwise, and `tests/stream.rs` holds to what it has to
/// cover: so many cases of this seed, and one of the widest for every two thousand of them. Also what
/// `tests/compare_writing.rs` and `tests/compare_playing.rs` take.
pub const SEED: u64 = 1;
pub const CASES: u64 = 20_000;
pub const CASES_PER_WIDEST: u64 = 2_000;
/// `tests/compare.rs` takes one case with calls at 0 for every four, and itself sees to what these cover.
pub const CASES_PER_AT_ZERO: u64 = 4;
/// For every so many cases of version 1, all of them take one of version 2.
pub const CASES_PER_SHIFTED: u64 = 4;
/// And one of version 3.
pub const CASES_PER_RESTED: u64 = 2;
/// `tests/certain.rs` and `tests/compare_certain.rs` take so many with nothing uncertain, and themselves see to what these cover.
pub const CERTAIN_CASES: u64 = 5_000;

/// A phrase file and the length of a table to lend for it.
#[derive(Clone, Debug)]
pub struct Case {
    pub file: Vec<u8>,
    pub table_words: usize,
}

type Change = fn(&mut Generator, Draft) -> Draft;

/// Makes a draft of version 1 one of the version wanted, in two steps.
#[derive(Clone, Copy)]
struct Versioned {
    /// Before due times are tuned to the walk, which rests alter.
    rested: Change,
    /// At last; the walk stays what it was.
    shifted: Change,
}

/// Nothing is drawn for it.
const UNCHANGED: Change = |_, draft| draft;

const VERSION_1: Versioned = Versioned {
    rested: UNCHANGED,
    shifted: UNCHANGED,
};
const VERSION_2: Versioned = Versioned {
    rested: UNCHANGED,
    shifted: shifted::shifted,
};
const VERSION_3: Versioned = Versioned {
    rested: rested::rested,
    shifted: shifted::shifted,
};

impl Versioned {
    /// Both steps, where nothing is walked in between.
    fn both(self, random: &mut Generator, draft: Draft) -> Draft {
        let draft = (self.rested)(random, draft);
        (self.shifted)(random, draft)
    }
}

/// With the same seed and number, a phrase of version 2 is not the one of version 1 once more.
fn of_shifted_case(seed: u64, number: u64) -> Generator {
    Generator::of_case(seed ^ (1 << 32), number)
}

fn of_rested_case(seed: u64, number: u64) -> Generator {
    Generator::of_case(seed ^ (1 << 33), number)
}

/// The case of this number in the stream of this seed; no other case is needed to make it.
pub fn case(seed: u64, number: u64) -> Case {
    any(&mut Generator::of_case(seed, number), VERSION_1)
}

/// A case of version 2, by number like the others.
pub fn shifted_case(seed: u64, number: u64) -> Case {
    any(&mut of_shifted_case(seed, number), VERSION_2)
}

/// A case of version 3, by number like the others.
pub fn rested_case(seed: u64, number: u64) -> Case {
    any(&mut of_rested_case(seed, number), VERSION_3)
}

fn any(random: &mut Generator, versioned: Versioned) -> Case {
    let file = match random.below(16) {
        0 => return large::large(random, versioned),
        1..=9 => valid::valid(random, versioned),
        _ => damaged::damaged(random, versioned),
    };
    let table_words = table_words(random, &file);
    Case { file, table_words }
}

/// A damaged file by itself.
pub fn damaged(random: &mut Generator) -> Vec<u8> {
    damaged::damaged(random, VERSION_1)
}

/// A phrase to write, by number like the others.
pub fn edited_case(seed: u64, number: u64) -> EditedCase {
    edited(&mut Generator::of_case(seed, number), VERSION_1)
}

/// A phrase of version 2 to write, by number like the others.
pub fn shifted_edited_case(seed: u64, number: u64) -> EditedCase {
    edited(&mut of_shifted_case(seed, number), VERSION_2)
}

/// A phrase of version 3 to write, by number like the others.
pub fn rested_edited_case(seed: u64, number: u64) -> EditedCase {
    edited(&mut of_rested_case(seed, number), VERSION_3)
}

/// A phrase file and a playing, by number like the others.
pub fn played_case(seed: u64, number: u64) -> PlayedCase {
    played(&mut Generator::of_case(seed, number), VERSION_1)
}

/// A phrase file of version 2 and a playing, by number like the others.
pub fn shifted_played_case(seed: u64, number: u64) -> PlayedCase {
    played(&mut of_shifted_case(seed, number), VERSION_2)
}

/// A phrase file of version 3 and a playing, by number like the others.
pub fn rested_played_case(seed: u64, number: u64) -> PlayedCase {
    played(&mut of_rested_case(seed, number), VERSION_3)
}

/// Phrases with nothing uncertain have streams of their own.
fn certain_seed(seed: u64) -> u64 {
    seed ^ (1 << 34)
}

/// A phrase file with nothing uncertain in its strokes, by number like the others.
pub fn certain_case(seed: u64, number: u64) -> Vec<u8> {
    let mut random = Generator::of_case(certain_seed(seed), number);
    certain(&mut random, VERSION_1)
}

/// The same of version 2, by number like the others.
pub fn shifted_certain_case(seed: u64, number: u64) -> Vec<u8> {
    let mut random = of_shifted_case(certain_seed(seed), number);
    certain(&mut random, VERSION_2)
}

/// The same of version 3, by number like the others.
pub fn rested_certain_case(seed: u64, number: u64) -> Vec<u8> {
    let mut random = of_rested_case(certain_seed(seed), number);
    certain(&mut random, VERSION_3)
}

/// A case with levels of thousands of states, by number like the others.
pub fn widest_case(seed: u64, number: u64) -> Case {
    large::widest(&mut Generator::of_case(seed, number))
}

/// A case with all or most calls at 0, by number like the others.
pub fn at_zero_case(seed: u64, number: u64) -> Case {
    let mut random = Generator::of_case(seed, number);
    let file = at_zero(&mut random);
    let table_words = table_words(&mut random, &file);
    Case { file, table_words }
}

/// One word less than tables of so many states take, `pair` words for each, or exactly so many, or
/// one more.
fn around(random: &mut Generator, pair: u64, states: u64) -> usize {
    (pair * states + random.below(3)).saturating_sub(1) as usize
}

/// Lengths that say something: none, the host's, any, and those around a whole number of states.
fn table_words(random: &mut Generator, file: &[u8]) -> usize {
    let Ok(phrase) = reading::read(file) else {
        return random.below(600) as usize;
    };
    let pair = 2 * walk::words_per_state(&phrase);
    match random.below(10) {
        0 => 0,
        1 => random.below(pair * 3) as usize,
        2 => {
            let states = random.range(1, 4);
            around(random, pair, states)
        }
        3 => random.below(HOST_WORDS as u64) as usize,
        4 | 5 => HOST_WORDS,
        6 => HOST_WORDS * 2,
        // Around the length at which 13 gives way to another answer.
        _ => {
            let peak = walk::walk(&phrase, 2 * HOST_WORDS).peak;
            around(random, pair, peak)
        }
    }
}

/// A scenario in the phrase's ranges; often at their limits, where bounds are reached.
pub fn scenario(random: &mut Generator, phrase: &Phrase) -> Scenario {
    let at_limits = random.below(101);
    let mut value = |low: u64, high: u64| {
        if random.chance(at_limits, 100) {
            if random.chance(1, 2) { low } else { high }
        } else {
            random.range(low, high)
        }
    };
    Scenario {
        calls: phrase
            .strokes
            .iter()
            .map(|s| value(s.call.low, s.call.high))
            .collect(),
        holds: phrase
            .strokes
            .iter()
            .map(|s| value(s.hold.low, s.hold.high))
            .collect(),
    }
}
