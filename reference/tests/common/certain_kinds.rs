//! What phrases with nothing uncertain were met: their sizes, what happens in their runs, and which strokes are late.

use reference::dispatch::Scenario;
use reference::playing::Played;
use reference::reading::{LATEST_TIME, Phrase};

use crate::counts::Counts;
use crate::one_run::{late_strokes, starting_order};

pub struct CertainKinds {
    pub accepted: u64,
    pub late: u64,
    by_drivers: [u64; 9],
    by_strokes: [u64; 65],
    runs: Counts<11>,
    /// Of the stroke that is told of, and of the others that are late.
    told: Counts<15>,
}

impl CertainKinds {
    pub fn new() -> CertainKinds {
        CertainKinds {
            accepted: 0,
            late: 0,
            by_drivers: [0; 9],
            by_strokes: [0; 65],
            runs: Counts::new(
                "runs",
                [
                    "with strokes that start at one moment",
                    "with such strokes of equal rank",
                    "with strokes of equal rank and call",
                    "with a stroke that waits for a driver",
                    "with a lesser stroke that starts before one that waits for a driver",
                    "with a start in the millisecond in which a listed stroke ends",
                    "with a bell that is struck three times",
                    "with a due time that is met exactly",
                    "with all due times met exactly",
                    "with an uncertain hold of a silent bell",
                    "with an end after the latest due time",
                ],
            ),
            told: Counts::new(
                "late",
                [
                    "by 1",
                    "by more",
                    "due at its call or before",
                    "the only one",
                    "with others",
                    "with others at the same moment",
                    "with one there of smaller number and greater rank",
                    "with one there of equal rank",
                    "with a later start of smaller number",
                    "with a later start of smaller rank",
                    "with another that ends before it",
                    "with another that is due before it",
                    "the first to start of all",
                    "the last to start of all",
                    "after a due time that is met exactly",
                ],
            ),
        }
    }

    pub fn add(&mut self, phrase: &Phrase, scenario: &Scenario, played: &Played) {
        self.by_drivers[phrase.drivers] += 1;
        self.by_strokes[phrase.strokes.len()] += 1;
        self.runs.add(runs(phrase, scenario, played));
        match late_strokes(phrase, played)[..] {
            [] => self.accepted += 1,
            [told, ref others @ ..] => {
                self.late += 1;
                self.told.add(told_of(phrase, played, told, others));
            }
        }
    }

    pub fn print(&self, what: &str) {
        let (accepted, late) = (self.accepted, self.late);
        println!("{what}: {}", accepted + late);
        println!("accepted {accepted}, late {late}");
        println!("by m: {:?}\nby K: {:?}", self.by_drivers, self.by_strokes);
        self.runs.print();
        self.told.print();
    }

    /// Names what was too rarely met in so many cases.
    pub fn demand_all(&self, cases: u64) -> Result<(), String> {
        if self.accepted * 3 < cases || self.late * 3 < cases {
            return Err("one of the two verdicts is rare".to_string());
        }
        if let Some(m) = (1..=8).find(|&m| self.by_drivers[m] * 40 < cases) {
            return Err(format!("{m} drivers are rare"));
        }
        if let Some(k) = (0..=64).find(|&k| self.by_strokes[k] * 2_500 < cases) {
            return Err(format!("{k} strokes are rare"));
        }
        self.runs.demand(cases, 80)?;
        self.told.demand(cases, 80)
    }
}

fn runs(phrase: &Phrase, scenario: &Scenario, played: &Played) -> [bool; 11] {
    let strokes = &phrase.strokes;
    let count = strokes.len();
    let any = |is_met: &dyn Fn(usize) -> bool| (0..count).any(is_met);
    let pairs = |is_met: &dyn Fn(usize, usize) -> bool| {
        (0..count).any(|b| (0..b).any(|a| is_met(a, b) || is_met(b, a)))
    };
    let together = |a: usize, b: usize| played.starts[a] == played.starts[b];
    let equal_rank = |a: usize, b: usize| strokes[a].rank == strokes[b].rank;
    let ready = |number: usize| {
        let stroke = &strokes[number];
        let rested = (stroke.waits.iter()).map(|&w| played.ends[w] + stroke.rest_after(w));
        rested.fold(scenario.calls[number], u64::max)
    };
    let ready: Vec<u64> = (0..count).map(ready).collect();
    let waits_on = |number: usize| ready[number] < played.starts[number];
    let listed_ends = |number: usize| {
        let stroke = &strokes[number];
        let listed = |wait: &usize| stroke.added != Some(*wait);
        let ends = stroke.waits.iter().filter(|wait| listed(wait));
        ends.map(|&w| played.ends[w])
            .any(|end| end == played.starts[number])
    };
    let struck = |bell: usize| strokes.iter().filter(|s| s.bell == bell).count();
    let is_silent = |bell: usize| phrase.bells[bell].hold.moments() > 1 && struck(bell) == 0;
    let is_exact = |number: usize| played.ends[number] == strokes[number].due;
    [
        pairs(&together),
        pairs(&|a, b| together(a, b) && equal_rank(a, b)),
        pairs(&|a, b| equal_rank(a, b) && scenario.calls[a] == scenario.calls[b]),
        any(&waits_on),
        pairs(&|a, b| {
            waits_on(a) && phrase.goes_before(a, b) && played.starts[b] < played.starts[a]
        }),
        any(&listed_ends),
        (0..phrase.bells.len()).any(|bell| struck(bell) >= 3),
        any(&is_exact),
        count > 0 && (0..count).all(is_exact),
        (0..phrase.bells.len()).any(is_silent),
        any(&|number| played.ends[number] > LATEST_TIME),
    ]
}

fn told_of(phrase: &Phrase, played: &Played, told: usize, others: &[usize]) -> [bool; 15] {
    let strokes = &phrase.strokes;
    let (start, end) = (played.starts[told], played.ends[told]);
    let stroke = &strokes[told];
    let order = starting_order(phrase, played);
    let before: Vec<usize> = (order.iter().copied())
        .take_while(|&stroke| stroke != told)
        .collect();
    let then: Vec<usize> = (others.iter().copied())
        .filter(|&other| played.starts[other] == start)
        .collect();
    let later: Vec<usize> = (others.iter().copied())
        .filter(|&other| played.starts[other] > start)
        .collect();
    [
        end == stroke.due + 1,
        end > stroke.due + 1,
        stroke.due <= stroke.call.low,
        others.is_empty(),
        !others.is_empty(),
        !then.is_empty(),
        then.iter().any(|&other| other < told),
        then.iter().any(|&other| strokes[other].rank == stroke.rank),
        later.iter().any(|&other| other < told),
        later.iter().any(|&other| strokes[other].rank < stroke.rank),
        others.iter().any(|&other| played.ends[other] < end),
        others.iter().any(|&other| strokes[other].due < stroke.due),
        before.is_empty(),
        before.len() + 1 == order.len(),
        (before.iter()).any(|&other| played.ends[other] == strokes[other].due),
    ]
}
