//! The dispatch rule, run millisecond by millisecond, and demand 3 held against a run.

use crate::range::Range;
use crate::reading::Phrase;

/// One call moment and one hold per stroke.
#[derive(Clone, Debug, PartialEq, Eq)]
pub struct Scenario {
    pub calls: Vec<u64>,
    pub holds: Vec<u64>,
}

#[derive(Clone, Copy, Debug, PartialEq, Eq)]
pub enum Status {
    Waiting,
    /// Holding until f.
    Holding(u64),
    Done,
}

#[derive(Clone, Debug, PartialEq, Eq)]
pub struct State {
    pub strokes: Vec<Status>,
    /// Free drivers.
    pub free: usize,
}

/// A run in progress: the state after the steps of every t so far.
pub struct Run<'a> {
    phrase: &'a Phrase,
    scenario: &'a Scenario,
    /// Stroke numbers, the first by rank first.
    by_rank: Vec<usize>,
    next_t: u64,
    state: State,
    /// f of each stroke that has started, done or not; a rest begins there.
    ends: Vec<u64>,
}

impl<'a> Run<'a> {
    pub fn new(phrase: &'a Phrase, scenario: &'a Scenario) -> Run<'a> {
        let count = phrase.strokes.len();
        let mut by_rank: Vec<usize> = (0..count).collect();
        by_rank.sort_by_key(|&i| (phrase.strokes[i].rank, i));
        Run {
            phrase,
            scenario,
            by_rank,
            next_t: 0,
            state: State {
                strokes: vec![Status::Waiting; count],
                free: phrase.drivers,
            },
            ends: vec![0; count],
        }
    }

    pub fn state(&self) -> &State {
        &self.state
    }

    /// Does the steps of the next t; names the strokes that start then, in order.
    pub fn step(&mut self) -> Vec<usize> {
        let t = self.next_t;
        self.next_t += 1;
        for status in &mut self.state.strokes {
            if *status == Status::Holding(t) {
                *status = Status::Done;
                self.state.free += 1;
            }
        }
        let mut starting = Vec::new();
        while self.state.free > 0 {
            let Some(first) = self.by_rank.iter().copied().find(|&i| self.is_ready(i, t)) else {
                break;
            };
            self.ends[first] = t + self.scenario.holds[first];
            self.state.strokes[first] = Status::Holding(self.ends[first]);
            self.state.free -= 1;
            starting.push(first);
        }
        starting
    }

    fn is_ready(&self, i: usize, t: u64) -> bool {
        let stroke = &self.phrase.strokes[i];
        let has_rested = |wait: usize| self.ends[wait] + stroke.rest_after(wait) <= t;
        self.state.strokes[i] == Status::Waiting
            && self.scenario.calls[i] <= t
            && (stroke.waits.iter())
                .all(|&wait| self.state.strokes[wait] == Status::Done && has_rested(wait))
    }
}

/// A start with its t and f, as the run made it.
#[derive(Clone, Copy, Debug, PartialEq, Eq)]
pub struct Start {
    pub stroke: usize,
    pub start: u64,
    pub end: u64,
}

/// Every start of the run from t = 0 to `last`, in the run's order, and the state after it.
pub fn play(phrase: &Phrase, scenario: &Scenario, last: u64) -> (Vec<Start>, State) {
    let mut run = Run::new(phrase, scenario);
    let mut starts = Vec::new();
    for t in 0..=last {
        for stroke in run.step() {
            let Status::Holding(end) = run.state.strokes[stroke] else {
                unreachable!("a stroke that starts holds");
            };
            starts.push(Start {
                stroke,
                start: t,
                end,
            });
        }
    }
    (starts, run.state)
}

/// The state after the steps of each t from 0 to `last`.
pub fn states(phrase: &Phrase, scenario: &Scenario, last: u64) -> Vec<State> {
    let mut run = Run::new(phrase, scenario);
    (0..=last)
        .map(|_| {
            run.step();
            run.state.clone()
        })
        .collect()
}

/// How a run breaks demand 3. Unrested: the second starts less than their bell's rest after the first ended.
#[derive(Clone, Copy, Debug, PartialEq, Eq)]
pub enum Breach {
    Starts { stroke: usize, times: usize },
    OutsideEnds { stroke: usize, end: u64 },
    AfterDue { stroke: usize, end: u64 },
    Overlap { first: usize, second: usize },
    Unrested { first: usize, second: usize },
    NotQuiet { stroke: usize },
}

/// Holds one run against demand 3, for the ends that an accepting check reported.
pub fn demand_3(phrase: &Phrase, ends: &[Range], scenario: &Scenario) -> Result<(), Breach> {
    let last = ends.iter().map(|ends| ends.high).max().unwrap_or(0);
    let (starts, state) = play(phrase, scenario, last);

    // Done strokes stay done, so the state at `last` speaks for every later t too.
    if let Some(stroke) = state.strokes.iter().position(|&s| s != Status::Done) {
        return Err(Breach::NotQuiet { stroke });
    }
    for stroke in 0..phrase.strokes.len() {
        let times = starts.iter().filter(|s| s.stroke == stroke).count();
        if times != 1 {
            return Err(Breach::Starts { stroke, times });
        }
    }
    for &Start { stroke, end, .. } in &starts {
        if !ends[stroke].contains(end) {
            return Err(Breach::OutsideEnds { stroke, end });
        }
        if end > phrase.strokes[stroke].due {
            return Err(Breach::AfterDue { stroke, end });
        }
    }
    for (position, second) in starts.iter().enumerate() {
        for first in &starts[..position] {
            keep_apart(phrase, first, second)?;
        }
    }
    Ok(())
}

/// Holds two strokes, in the order of their starts, to what is asked of those of one bell.
fn keep_apart(phrase: &Phrase, a: &Start, b: &Start) -> Result<(), Breach> {
    let bell = phrase.strokes[a.stroke].bell;
    if bell != phrase.strokes[b.stroke].bell {
        return Ok(());
    }
    let (first, second) = (a.stroke, b.stroke);
    if a.start.max(b.start) < a.end.min(b.end) {
        return Err(Breach::Overlap { first, second });
    }
    if b.start < a.end + phrase.bells[bell].rest {
        return Err(Breach::Unrested { first, second });
    }
    Ok(())
}

/// How many scenarios the phrase's ranges allow, if that is a 64-bit number.
pub fn scenario_count(phrase: &Phrase) -> Option<u64> {
    phrase
        .strokes
        .iter()
        .flat_map(|stroke| [stroke.call, stroke.hold])
        .try_fold(1u64, |count, range| count.checked_mul(range.moments()))
}

/// Every scenario in the phrase's ranges, once.
pub fn all_scenarios(phrase: &Phrase) -> impl Iterator<Item = Scenario> + '_ {
    let first = Scenario {
        calls: phrase.strokes.iter().map(|s| s.call.low).collect(),
        holds: phrase.strokes.iter().map(|s| s.hold.low).collect(),
    };
    std::iter::successors(Some(first), |scenario| following(phrase, scenario))
}

/// Counts on like an odometer: the first value that can rise does, those before it start anew.
fn following(phrase: &Phrase, scenario: &Scenario) -> Option<Scenario> {
    let mut next = scenario.clone();
    let calls = next
        .calls
        .iter_mut()
        .zip(phrase.strokes.iter().map(|s| s.call));
    let holds = next
        .holds
        .iter_mut()
        .zip(phrase.strokes.iter().map(|s| s.hold));
    for (value, range) in calls.chain(holds) {
        if *value < range.high {
            *value += 1;
            return Some(next);
        }
        *value = range.low;
    }
    None
}
