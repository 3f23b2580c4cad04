//! The dispatch rule by events. Between two of them nothing changes, so time jumps from each to the next: as quick for long
//! runs as for short ones. Tests hold it against the literal run.

use std::cmp::Reverse;
use std::collections::BinaryHeap;

use crate::dispatch::Scenario;
use crate::playing::Played;
use crate::reading::Phrase;

#[derive(Clone, Copy, PartialEq, Eq, PartialOrd, Ord)]
enum Event {
    Call(usize),
    End(usize),
    /// This stroke's bell has rested since its earlier stroke.
    Rested(usize),
}

struct Run<'a> {
    phrase: &'a Phrase,
    scenario: &'a Scenario,
    /// Calls, ends and ends of rests to come, the soonest first.
    events: BinaryHeap<Reverse<(u64, Event)>>,
    /// Ready strokes, each after its rank, the first of them first.
    ready: BinaryHeap<Reverse<(u64, usize)>>,
    /// For each stroke, how much it lacks to be ready: its call, and those of its waits that have not been done for their
    /// rest.
    lacking: Vec<usize>,
    /// For each stroke, those that wait for it.
    waiting: Vec<Vec<usize>>,
    /// Free drivers.
    free: usize,
    played: Played,
}

/// When each stroke of a playing starts and ends.
pub fn by_events(phrase: &Phrase, scenario: &Scenario) -> Played {
    let mut run = Run::new(phrase, scenario);
    while let Some(&Reverse((t, _))) = run.events.peek() {
        run.step(t);
    }
    run.played
}

impl<'a> Run<'a> {
    fn new(phrase: &'a Phrase, scenario: &'a Scenario) -> Run<'a> {
        let strokes = &phrase.strokes;
        let mut waiting = vec![Vec::new(); strokes.len()];
        for (number, stroke) in strokes.iter().enumerate() {
            for &wait in &stroke.waits {
                waiting[wait].push(number);
            }
        }
        let calls = scenario.calls.iter().enumerate();
        Run {
            phrase,
            scenario,
            events: calls
                .map(|(number, &call)| Reverse((call, Event::Call(number))))
                .collect(),
            ready: BinaryHeap::new(),
            lacking: strokes.iter().map(|s| 1 + s.waits.len()).collect(),
            waiting,
            free: phrase.drivers,
            played: Played::nothing(),
        }
    }

    /// All that happens at t, at which there is an event: the events first, then the starts.
    fn step(&mut self, t: u64) {
        while let Some(&Reverse((time, event))) = self.events.peek()
            && time == t
        {
            self.events.pop();
            match event {
                Event::Call(stroke) | Event::Rested(stroke) => self.supply(stroke),
                Event::End(stroke) => self.end(stroke, t),
            }
        }
        while self.free > 0
            && let Some(Reverse((_, stroke))) = self.ready.pop()
        {
            self.start(stroke, t);
        }
    }

    fn end(&mut self, stroke: usize, t: u64) {
        self.free += 1;
        for waiting in std::mem::take(&mut self.waiting[stroke]) {
            match self.phrase.strokes[waiting].rest_after(stroke) {
                0 => self.supply(waiting),
                rest => (self.events).push(Reverse((t + rest, Event::Rested(waiting)))),
            }
        }
    }

    /// Gives a stroke one thing that it lacked; with the last it is ready.
    fn supply(&mut self, stroke: usize) {
        self.lacking[stroke] -= 1;
        if self.lacking[stroke] == 0 {
            let rank = self.phrase.strokes[stroke].rank;
            self.ready.push(Reverse((rank, stroke)));
        }
    }

    fn start(&mut self, stroke: usize, t: u64) {
        let end = t + self.scenario.holds[stroke];
        self.free -= 1;
        self.events.push(Reverse((end, Event::End(stroke))));
        self.played.starts[stroke] = t;
        self.played.ends[stroke] = end;
    }
}
