//! Holds the answers to phrases with tried notes to what was worked out by hand.

use reference::note_order::ANSWERS;

/// Prints how many had each answer; fails if it is not as many as are due, or if there is another answer.
pub fn demand_exactly(what: &str, counts: &[u64], due: [u64; 4]) -> Result<(), String> {
    let found = ANSWERS.map(|number| counts[number]);
    let all: u64 = counts.iter().sum();
    println!("{what}: {all}, with the answers {ANSWERS:?}: {found:?}");
    if found == due && all == due.iter().sum() {
        Ok(())
    } else {
        Err(format!("{what}: {due:?} of these answers are due"))
    }
}
