//! The walk: level by level over the states of a phrase, in a table of so many words.

use crate::range::Range;
use crate::reading::{Phrase, Stroke};

#[derive(Clone, Debug, PartialEq, Eq)]
pub enum Outcome {
    /// Level K has been built.
    Accepted {
        ends: Vec<Range>,
        responses: Vec<Range>,
        states: u64,
    },
    /// 13: this level already holds S states.
    Full { level: usize },
    /// 14: the edge that starts this stroke may end after its due time.
    Late { stroke: usize, ends: Range },
}

/// An outcome, and beside it what a benchmark wants to know.
#[derive(Clone, Debug, PartialEq, Eq)]
pub struct Walk {
    pub outcome: Outcome,
    pub edges: u64,
    /// States stored, level 0 included, whatever the outcome.
    pub states: u64,
    /// The most states that one level held.
    pub peak: u64,
}

#[derive(Debug)]
pub struct State {
    /// Bit i: stroke i has started.
    pub started: u64,
    /// A1 to Am.
    pub available: Vec<Range>,
    /// Per stroke [E, F]; only those of started strokes mean anything.
    pub ends: Vec<Range>,
}

#[derive(Debug)]
pub struct Candidate {
    pub stroke: usize,
    /// [Rmin, Rmax]
    pub ready: Range,
}

/// A candidate of a state, with all that decides whether it may go next.
#[derive(Debug)]
pub struct Choice<'a> {
    pub phrase: &'a Phrase,
    pub state: &'a State,
    /// All candidates of the state, by rising number.
    pub candidates: &'a [Candidate],
    /// The one of them in question.
    pub candidate: &'a Candidate,
}

#[derive(Debug)]
pub struct Edge {
    pub stroke: usize,
    /// EST
    pub earliest_start: u64,
    /// [E, F]
    pub ends: Range,
}

/// W: the words that a state takes.
pub fn words_per_state(phrase: &Phrase) -> u64 {
    2 + 2 * phrase.drivers as u64 + 2 * phrase.strokes.len() as u64
}

/// S: the states that each half of the table has room for.
pub fn capacity(phrase: &Phrase, table_words: usize) -> u64 {
    table_words as u64 / (2 * words_per_state(phrase))
}

pub fn walk(phrase: &Phrase, table_words: usize) -> Walk {
    walk_observed(phrase, table_words, |_, _| {})
}

/// The same walk. Every candidate of every state that it comes to is shown to `observe`, with the edge by which it goes
/// next, if it may; a refusal ends the walk at the edge shown last.
pub fn walk_observed(
    phrase: &Phrase,
    table_words: usize,
    observe: impl FnMut(&Choice, Option<&Edge>),
) -> Walk {
    let mut walker = Walker {
        phrase,
        wait_sets: phrase
            .strokes
            .iter()
            .map(|stroke| stroke.waits.iter().fold(0, |set, &wait| set | 1 << wait))
            .collect(),
        capacity: capacity(phrase, table_words),
        running: vec![None; phrase.strokes.len()],
        edges: 0,
        states: 0,
        peak: 0,
        observe,
    };
    let outcome = walker.walk().unwrap_or_else(|refusal| refusal);
    Walk {
        outcome,
        edges: walker.edges,
        states: walker.states,
        peak: walker.peak,
    }
}

struct Walker<'a, O> {
    phrase: &'a Phrase,
    wait_sets: Vec<u64>,
    capacity: u64,
    /// The running ends; none until an edge starts the stroke.
    running: Vec<Option<Range>>,
    edges: u64,
    states: u64,
    peak: u64,
    observe: O,
}

impl<O: FnMut(&Choice, Option<&Edge>)> Walker<'_, O> {
    /// Accepted, or as an error the refusal that ended the walk.
    fn walk(&mut self) -> Result<Outcome, Outcome> {
        let phrase = self.phrase;
        let mut level = Vec::new();
        self.store(&mut level, 0, || State {
            started: 0,
            available: vec![Range::new(0, 0); phrase.drivers],
            ends: vec![Range::new(0, 0); phrase.strokes.len()],
        })?;
        for number in 1..=phrase.strokes.len() {
            level = self.next_level(&level, number)?;
        }
        Ok(self.accepted())
    }

    fn next_level(&mut self, level: &[State], number: usize) -> Result<Vec<State>, Outcome> {
        let mut next = Vec::new();
        let mut candidates = Vec::new();
        let mut available = Vec::new();
        for state in level {
            self.find_candidates(state, &mut candidates);
            let Some(first_ready) = candidates.iter().map(|c| c.ready.high).min() else {
                continue;
            };
            for candidate in &candidates {
                let choice = Choice {
                    phrase: self.phrase,
                    state,
                    candidates: &candidates,
                    candidate,
                };
                let edge = self.edge(&choice, first_ready);
                (self.observe)(&choice, edge.as_ref());
                if let Some(edge) = edge {
                    self.take(state, &edge, &mut available, &mut next, number)?;
                }
            }
        }
        Ok(next)
    }

    /// The strokes not started whose wait set is all started, by rising number.
    fn find_candidates(&self, state: &State, candidates: &mut Vec<Candidate>) {
        candidates.clear();
        for (stroke, &wait_set) in self.wait_sets.iter().enumerate() {
            if state.started >> stroke & 1 == 1 || wait_set & !state.started != 0 {
                continue;
            }
            let ready = ready(&self.phrase.strokes[stroke], state);
            candidates.push(Candidate { stroke, ready });
        }
    }

    /// The edge by which the candidate goes next, if it may; `first_ready` is the smallest Rmax.
    fn edge(&self, choice: &Choice, first_ready: u64) -> Option<Edge> {
        let (state, i) = (choice.state, choice.candidate);
        let first = state.available[0];
        let earliest_start = first.low.max(i.ready.low);
        let certain = first.high.max(first_ready);
        if earliest_start > certain {
            return None;
        }
        let mut latest_start = certain;
        for j in choice.candidates {
            if self.phrase.goes_before(j.stroke, i.stroke) {
                let blocked = self.certain_before(state, j.stroke, i.stroke);
                if earliest_start >= blocked {
                    return None;
                }
                latest_start = latest_start.min(blocked - 1);
            }
        }
        let hold = self.phrase.strokes[i.stroke].hold;
        Some(Edge {
            stroke: i.stroke,
            earliest_start,
            ends: Range::new(earliest_start + hold.low, latest_start + hold.high),
        })
    }

    /// From when on `j` is certainly ready, given that the waits of `i` have been done for their rests.
    fn certain_before(&self, state: &State, j: usize, i: usize) -> u64 {
        let (waits_of_i, i) = (self.wait_sets[i], &self.phrase.strokes[i]);
        let j = &self.phrase.strokes[j];
        let is_left_out = |wait: usize| {
            let is_shared = waits_of_i >> wait & 1 == 1;
            is_shared && j.rest_after(wait) <= i.rest_after(wait)
        };
        (j.waits.iter())
            .filter(|&&wait| !is_left_out(wait))
            .map(|&wait| state.ends[wait].high + j.rest_after(wait))
            .fold(j.call.high, u64::max)
    }

    /// Takes an edge: widens the running ends, then refuses, joins or stores the new state.
    fn take(
        &mut self,
        state: &State,
        edge: &Edge,
        available: &mut Vec<Range>,
        next: &mut Vec<State>,
        level: usize,
    ) -> Result<(), Outcome> {
        self.edges += 1;
        let running = &mut self.running[edge.stroke];
        *running = Some(running.map_or(edge.ends, |ends| ends.widened(edge.ends)));
        if edge.ends.high > self.phrase.strokes[edge.stroke].due {
            return Err(Outcome::Late {
                stroke: edge.stroke,
                ends: edge.ends,
            });
        }

        let started = state.started | 1 << edge.stroke;
        available_after(state, edge, available);
        let meeting = next.iter_mut().find(|stored| {
            stored.started == started
                && stored
                    .available
                    .iter()
                    .zip(&*available)
                    .all(|(a, b)| a.meets(*b))
        });
        if let Some(stored) = meeting {
            stored.join(state, edge, available);
            return Ok(());
        }
        self.store(next, level, || {
            let mut ends = state.ends.clone();
            ends[edge.stroke] = edge.ends;
            State {
                started,
                available: available.clone(),
                ends,
            }
        })
    }

    /// Stores a state last in its level, or refuses when the level is full.
    fn store(
        &mut self,
        states: &mut Vec<State>,
        level: usize,
        state: impl FnOnce() -> State,
    ) -> Result<(), Outcome> {
        if states.len() as u64 >= self.capacity {
            return Err(Outcome::Full { level });
        }
        states.push(state());
        self.states += 1;
        self.peak = self.peak.max(states.len() as u64);
        Ok(())
    }

    fn accepted(&self) -> Outcome {
        let ends: Vec<Range> = self
            .running
            .iter()
            .map(|ends| ends.expect("every stroke is started on the way to level K"))
            .collect();
        let responses = ends
            .iter()
            .zip(&self.phrase.strokes)
            .map(|(ends, stroke)| {
                Range::new(ends.low - stroke.call.low, ends.high - stroke.call.low)
            })
            .collect();
        Outcome::Accepted {
            ends,
            responses,
            states: self.states,
        }
    }
}

impl State {
    /// Joins the state that `edge` makes of `from`; both hold the same set.
    fn join(&mut self, from: &State, edge: &Edge, available: &[Range]) {
        for (a, b) in self.available.iter_mut().zip(available) {
            *a = a.widened(*b);
        }
        // `from` has not started the edge's stroke, so its entry there means nothing.
        let ends = self.ends[edge.stroke].widened(edge.ends);
        for (a, b) in self.ends.iter_mut().zip(&from.ends) {
            *a = a.widened(*b);
        }
        self.ends[edge.stroke] = ends;
    }
}

/// [Rmin, Rmax] of a stroke whose waits have all started.
fn ready(stroke: &Stroke, state: &State) -> Range {
    stroke.waits.iter().fold(stroke.call, |ready, &wait| {
        let rested = state.ends[wait].later(stroke.rest_after(wait));
        Range::new(ready.low.max(rested.low), ready.high.max(rested.high))
    })
}

/// The new availability ranges: lower and upper limits, each sorted on its own.
fn available_after(state: &State, edge: &Edge, available: &mut Vec<Range>) {
    let start = edge.earliest_start;
    available.clear();
    available.push(edge.ends);
    available.extend(
        state.available[1..]
            .iter()
            .map(|a| Range::new(a.low.max(start), a.high.max(start))),
    );
    // A2 to Am are sorted already: one pass brings the stroke's own ends to their places.
    for x in 1..available.len() {
        let (a, b) = (available[x - 1], available[x]);
        available[x - 1] = Range::new(a.low.min(b.low), a.high.min(b.high));
        available[x] = Range::new(a.low.max(b.low), a.high.max(b.high));
    }
}
