//! Reads a playing, a call moment and a hold for each stroke of a phrase, and works it out by the dispatch rule.

use crate::dispatch::{Run, Scenario, Status};
use crate::layout::HEAD;
use crate::reading::{MOST_STROKES, Phrase, Refusal, big_endian, read, refusal, require};

/// A call moment of four bytes and a hold of two.
const STROKE_BYTES: usize = 6;

/// When each stroke starts and ends; zero from K on.
#[derive(Clone, Debug, PartialEq, Eq)]
pub struct Played {
    pub starts: [u64; MOST_STROKES],
    pub ends: [u64; MOST_STROKES],
}

impl Played {
    /// Zero in every entry: before any stroke starts, and what a refusal leaves.
    pub fn nothing() -> Played {
        Played {
            starts: [0; MOST_STROKES],
            ends: [0; MOST_STROKES],
        }
    }
}

/// Works out a playing of a phrase, literally.
pub fn play(file: &[u8], playing: &[u8]) -> Result<Played, Refusal> {
    play_by(file, playing, literally)
}

/// Reads the phrase, then the playing, and runs it as told.
pub fn play_by(
    file: &[u8],
    playing: &[u8],
    run: impl FnOnce(&Phrase, &Scenario) -> Played,
) -> Result<Played, Refusal> {
    let phrase = read(file)?;
    let scenario = read_playing(&phrase, playing)?;
    Ok(run(&phrase, &scenario))
}

/// The values of a playing, all in the phrase's ranges; else 17, or 18 with the first stroke that has one out of range.
pub fn read_playing(phrase: &Phrase, playing: &[u8]) -> Result<Scenario, Refusal> {
    let records = records(playing, phrase.strokes.len()).ok_or(refusal(17, 0))?;
    let mut scenario = Scenario {
        calls: Vec::new(),
        holds: Vec::new(),
    };
    let records = records.chunks_exact(STROKE_BYTES);
    for (number, (stroke, record)) in phrase.strokes.iter().zip(records).enumerate() {
        let (call, hold) = (big_endian(&record[..4]), big_endian(&record[4..]));
        let in_range = stroke.call.contains(call) && stroke.hold.contains(hold);
        require(in_range, 18, number)?;
        scenario.calls.push(call);
        scenario.holds.push(hold);
    }
    Ok(scenario)
}

/// What follows the head, if version, count and the number of strokes are right.
fn records(playing: &[u8], strokes: usize) -> Option<&[u8]> {
    let (head, records) = playing.split_at_checked(HEAD)?;
    let right = head[0] == 1
        && big_endian(&head[1..]) == records.len() as u64
        && records.len() == STROKE_BYTES * strokes;
    right.then_some(records)
}

/// The run millisecond by millisecond, until every stroke has started.
pub fn literally(phrase: &Phrase, scenario: &Scenario) -> Played {
    let mut run = Run::new(phrase, scenario);
    let mut played = Played::nothing();
    let mut waiting = phrase.strokes.len();
    let mut t = 0;
    while waiting > 0 {
        for stroke in run.step() {
            let Status::Holding(end) = run.state().strokes[stroke] else {
                unreachable!("a stroke that starts holds");
            };
            played.starts[stroke] = t;
            played.ends[stroke] = end;
            waiting -= 1;
        }
        t += 1;
    }
    played
}
