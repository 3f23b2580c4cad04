//! What rests do in runs of phrases of version 3.

use reference::dispatch::Scenario;
use reference::playing::Played;
use reference::reading::Phrase;

use crate::counts::Counts;

pub struct RestedRuns {
    runs: Counts<4>,
}

impl RestedRuns {
    pub fn new() -> RestedRuns {
        RestedRuns {
            runs: Counts::new(
                "runs of version 3",
                [
                    "with a start in the millisecond in which a rest is over",
                    "with a stroke that rests while a lesser one starts",
                    "with a stroke that has rested and waits for a driver",
                    "with a predecessor that is listed too and rests",
                ],
            ),
        }
    }

    pub fn add(&mut self, phrase: &Phrase, scenario: &Scenario, played: &Played) {
        let strokes = || 0..phrase.strokes.len();
        // When all but the rest would have let a stroke start, and when it has rested.
        let moments = |number: usize| {
            let stroke = &phrase.strokes[number];
            let ends = stroke.waits.iter().map(|&wait| played.ends[wait]);
            let called = ends.fold(scenario.calls[number], u64::max);
            let rested = stroke.nearest.map_or(0, |n| played.ends[n] + stroke.rest);
            (called, rested)
        };
        let rests = |number: usize| moments(number).0 < moments(number).1;
        let starts_rested = |number| rests(number) && played.starts[number] == moments(number).1;
        let is_passed = |number| {
            let (called, rested) = moments(number);
            let starts_then = |lesser| (called..rested).contains(&played.starts[lesser]);
            strokes().any(|lesser| phrase.goes_before(number, lesser) && starts_then(lesser))
        };
        let waits_on = |number| rests(number) && played.starts[number] > moments(number).1;
        let is_listed = |number: usize| rests(number) && phrase.strokes[number].added.is_none();
        self.runs.add([
            strokes().any(starts_rested),
            strokes().any(is_passed),
            strokes().any(waits_on),
            strokes().any(is_listed),
        ]);
    }

    pub fn print(&self) {
        self.runs.print();
    }

    /// Names a kind that was too rarely met in so many cases.
    pub fn demand(&self, cases: u64) -> Result<(), String> {
        self.runs.demand(cases, 50)
    }
}
