//! The check: reading, then the walk, and the answer that both give.

use crate::range::Range;
use crate::reading::{self, MOST_STROKES, Phrase};
use crate::walk::{self, Outcome, Walk};

/// The words that the host's own calls and the program lend.
pub const HOST_WORDS: usize = 16_384;

#[derive(Clone, Copy, Debug, PartialEq, Eq)]
pub enum Answer {
    Accepted,
    Refused { number: u64, place: u64 },
    Late { stroke: usize, ends: Range },
}

/// An answer with what it carries; all of it zero unless accepted.
#[derive(Clone, Debug, PartialEq, Eq)]
pub struct Check {
    pub answer: Answer,
    /// K
    pub strokes: usize,
    pub ends: [Range; MOST_STROKES],
    pub responses: [Range; MOST_STROKES],
    /// States stored, level 0 included.
    pub states: u64,
}

impl Check {
    /// An answer that carries nothing: what every refusal is, late or not.
    pub fn bare(answer: Answer) -> Check {
        Check {
            answer,
            strokes: 0,
            ends: [Range::new(0, 0); MOST_STROKES],
            responses: [Range::new(0, 0); MOST_STROKES],
            states: 0,
        }
    }

    pub fn is_accepted(&self) -> bool {
        self.answer == Answer::Accepted
    }

    /// What the host's check returns: 0, or the refusal's number above its place or stroke.
    pub fn host_number(&self) -> u64 {
        let (number, place) = match self.answer {
            Answer::Accepted => (0, 0),
            Answer::Refused { number, place } => (number, place),
            Answer::Late { stroke, .. } => (14, stroke as u64),
        };
        number * 4_294_967_296 + place
    }
}

pub fn check(file: &[u8], table_words: usize) -> Check {
    match reading::read(file) {
        Ok(phrase) => check_phrase(&phrase, table_words),
        Err(refusal) => Check::bare(refusal.into()),
    }
}

pub fn check_phrase(phrase: &Phrase, table_words: usize) -> Check {
    walk::walk(phrase, table_words).into()
}

impl From<reading::Refusal> for Answer {
    fn from(refusal: reading::Refusal) -> Answer {
        Answer::Refused {
            number: refusal.number,
            place: refusal.place,
        }
    }
}

impl From<Walk> for Check {
    fn from(walk: Walk) -> Check {
        match walk.outcome {
            Outcome::Accepted {
                ends,
                responses,
                states,
            } => {
                let mut check = Check::bare(Answer::Accepted);
                check.strokes = ends.len();
                check.ends[..ends.len()].copy_from_slice(&ends);
                check.responses[..responses.len()].copy_from_slice(&responses);
                check.states = states;
                check
            }
            Outcome::Full { level } => Check::bare(Answer::Refused {
                number: 13,
                place: level as u64,
            }),
            Outcome::Late { stroke, ends } => Check::bare(Answer::Late { stroke, ends }),
        }
    }
}
