//! What rests decide in the check of phrases of version 3: verdicts, ends and numbers of states.

use reference::check::{Answer, Check, check_phrase};
use reference::reading::{Phrase, read};

use crate::counts::Counts;

pub struct RestedVerdicts {
    by_rests: Counts<6>,
}

impl RestedVerdicts {
    pub fn new() -> RestedVerdicts {
        RestedVerdicts {
            by_rests: Counts::new(
                "of version 3 and by their rests",
                [
                    "accepted with other ends",
                    "accepted with more states",
                    "accepted with fewer states",
                    "late instead of accepted",
                    "full instead of accepted",
                    "late or full instead of full or late",
                ],
            ),
        }
    }

    /// A file drawn as one of version 3, and the words of its table: the check, and what it would be without rests.
    pub fn add(&mut self, file: &[u8], table_words: usize) {
        if let Ok(phrase) = read(file) {
            let check = check_phrase(&phrase, table_words);
            let without = check_phrase(&without_rests(phrase), table_words);
            self.by_rests.add(changes(&check, &without));
        }
    }

    pub fn print(&self) {
        self.by_rests.print();
    }

    /// Names a kind that was too rarely met in so many cases.
    pub fn demand_all(&self, cases: u64) -> Result<(), String> {
        self.by_rests.demand(cases, 1_000)
    }
}

fn without_rests(mut phrase: Phrase) -> Phrase {
    phrase.bells.iter_mut().for_each(|bell| bell.rest = 0);
    phrase.strokes.iter_mut().for_each(|stroke| stroke.rest = 0);
    phrase
}

fn changes(check: &Check, without: &Check) -> [bool; 6] {
    let is_full = |check: &Check| matches!(check.answer, Answer::Refused { number: 13, .. });
    let is_late = |check: &Check| matches!(check.answer, Answer::Late { .. });
    let both_accepted = check.is_accepted() && without.is_accepted();
    [
        both_accepted && check.ends != without.ends,
        both_accepted && check.states > without.states,
        both_accepted && check.states < without.states,
        is_late(check) && without.is_accepted(),
        is_full(check) && without.is_accepted(),
        is_late(check) && is_full(without) || is_full(check) && is_late(without),
    ]
}
