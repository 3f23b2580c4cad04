//! A check's result, as the programs `checker_examples` and `report_examples` print it.

use crate::check::{Answer, Check};

/// The answer with all that it carries: K entries of each array, and that the others are zero.
pub fn result(check: &Check) -> String {
    let k = check.strokes;
    let row = |name: &str, times: &mut dyn Iterator<Item = u64>| {
        let times: String = times.map(|time| format!(" {time}")).collect();
        format!("{name}{times}, clear\n")
    };
    let ends = &check.ends[..k];
    let responses = &check.responses[..k];
    [
        format!("{}, jobs {k}, states {}\n", answer(check), check.states),
        row("earliest", &mut ends.iter().map(|r| r.low)),
        row("latest", &mut ends.iter().map(|r| r.high)),
        row("best", &mut responses.iter().map(|r| r.low)),
        row("worst", &mut responses.iter().map(|r| r.high)),
    ]
    .concat()
}

fn answer(check: &Check) -> String {
    match check.answer {
        Answer::Accepted => "accepted".to_string(),
        Answer::Refused { number, place } => format!("refused {number} at {place}"),
        Answer::Late { stroke, ends } => format!("late {stroke} ends {} {}", ends.low, ends.high),
    }
}
