//! What the check has to give for a phrase with nothing uncertain in its strokes, by request #107: from the starts and ends of
//! its one run alone, whoever ran it.

use reference::check::{Answer, Check};
use reference::dispatch::{Scenario, all_scenarios, scenario_count};
use reference::playing::Played;
use reference::range::Range;
use reference::reading::Phrase;

/// The calls and holds of the phrase itself; none if it leaves any of them open.
pub fn one_scenario(phrase: &Phrase) -> Option<Scenario> {
    let is_certain = scenario_count(phrase) == Some(1);
    all_scenarios(phrase).next().filter(|_| is_certain)
}

/// The strokes in the order in which the run starts them: by start, and at one moment by rank, then number.
pub fn starting_order(phrase: &Phrase, played: &Played) -> Vec<usize> {
    let mut order: Vec<usize> = (0..phrase.strokes.len()).collect();
    order.sort_by_key(|&stroke| (played.starts[stroke], phrase.strokes[stroke].rank, stroke));
    order
}

/// Those that miss their due times, in that order.
pub fn late_strokes(phrase: &Phrase, played: &Played) -> Vec<usize> {
    let mut order = starting_order(phrase, played);
    order.retain(|&stroke| played.ends[stroke] > phrase.strokes[stroke].due);
    order
}

/// Both limits are the one moment.
pub fn at(moment: u64) -> Range {
    Range::new(moment, moment)
}

/// With any table that has room for a state: accepted with the run's ends and a state for each level, or late with the first
/// stroke to start that is late.
pub fn check_by_run(phrase: &Phrase, played: &Played) -> Check {
    if let Some(&stroke) = late_strokes(phrase, played).first() {
        let ends = at(played.ends[stroke]);
        return Check::bare(Answer::Late { stroke, ends });
    }
    let mut check = Check::bare(Answer::Accepted);
    check.strokes = phrase.strokes.len();
    check.states = phrase.strokes.len() as u64 + 1;
    for (number, stroke) in phrase.strokes.iter().enumerate() {
        let end = played.ends[number];
        check.ends[number] = at(end);
        check.responses[number] = at(end - stroke.call.low);
    }
    check
}
