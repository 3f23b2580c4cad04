//! The test whether a candidate may go next, in the steps and the order of the paper (source document 004, section 4.4,
//! equations 4 to 11): earliest start, latest start, one comparison, two ends. All are taken, also where the comparison
//! fails. The walk has its own way, document 01's two comparisons; tests hold one against the other.
//!
//! A choice brings what comes before: the candidates (equation 1) and their ready ranges, Rmin and Rmax (equations 2 and
//! 3). As a state keeps the ends of all started strokes, the paper's EFT* and LFT* of a wait are its E and F there. The
//! paper has no rests; request #106 says what they add.
//!
//! Moments are signed: where thigh is 0, a latest start of thigh - 1 is below zero.

use crate::walk::{Candidate, Choice};

#[derive(Clone, Copy, Debug, PartialEq, Eq)]
pub struct Steps {
    pub est: i64,
    /// None where it is infinite.
    pub thigh: Option<i64>,
    pub twc: i64,
    pub lst: i64,
    pub is_eligible: bool,
    /// The two ends mean something only where the candidate is eligible.
    pub eft: i64,
    pub lft: i64,
}

/// All steps in the paper's order, whatever the comparison says.
pub fn steps(choice: &Choice) -> Steps {
    let est = est(choice);
    let thigh = thigh(choice);
    let twc = twc(choice);
    let lst = lst(twc, thigh);
    let is_eligible = is_eligible(est, lst);
    let eft = eft(choice, est);
    let lft = lft(choice, lst);
    Steps {
        est,
        thigh,
        twc,
        lst,
        is_eligible,
        eft,
        lft,
    }
}

/// Equation 4, the earliest start: EST in document 01.
pub fn est(choice: &Choice) -> i64 {
    let ready = signed(choice.candidate.ready.low);
    let available = signed(choice.state.available[0].low);
    ready.max(available)
}

/// Equation 5, from when on this is certainly not the ready stroke that goes first: thigh in document 01, none for its
/// infinite. Where the paper compares priorities, document 01 compares ranks, then numbers.
pub fn thigh(choice: &Choice) -> Option<i64> {
    let i = choice.candidate.stroke;
    (choice.candidates.iter())
        .filter(|x| choice.phrase.goes_before(x.stroke, i))
        .map(|x| th(choice, x))
        .min()
}

/// Equation 6, the same for one `x` that goes before: in document 01 the larger of its rb and the F of those of its waits
/// that are not waits of this one. By request #106 each F counts with its rest, and so does a shared wait whose rest is
/// larger for `x`.
pub fn th(choice: &Choice, x: &Candidate) -> i64 {
    let i = &choice.phrase.strokes[choice.candidate.stroke];
    let x = &choice.phrase.strokes[x.stroke];
    let counts = |wait: usize| !i.waits.contains(&wait) || x.rest_after(wait) > i.rest_after(wait);
    let counted = x.waits.iter().filter(|&&wait| counts(wait));
    let rested = counted.map(|&wait| signed(choice.state.ends[wait].high + x.rest_after(wait)));
    signed(x.call.high).max(rested.max().unwrap_or(0))
}

/// Equation 7, from when on a driver is certainly free and some candidate certainly ready: twc in document 01.
pub fn twc(choice: &Choice) -> i64 {
    let available = signed(choice.state.available[0].high);
    let ready = choice.candidates.iter().map(|x| signed(x.ready.high)).min();
    available.max(ready.expect("the candidate in question is one of them"))
}

/// Equation 8, the latest start: LST in document 01, which has it only of candidates that may go next.
pub fn lst(twc: i64, thigh: Option<i64>) -> i64 {
    match thigh {
        Some(thigh) => twc.min(thigh - 1),
        None => twc,
    }
}

/// Equation 9, the comparison: in document 01 the two that say whether a candidate may go next.
pub fn is_eligible(est: i64, lst: i64) -> bool {
    est <= lst
}

/// Equation 10, the earliest finish: E in document 01.
pub fn eft(choice: &Choice, est: i64) -> i64 {
    est + signed(choice.phrase.strokes[choice.candidate.stroke].hold.low)
}

/// Equation 11, the latest finish: F in document 01.
pub fn lft(choice: &Choice, lst: i64) -> i64 {
    lst + signed(choice.phrase.strokes[choice.candidate.stroke].hold.high)
}

fn signed(time: u64) -> i64 {
    i64::try_from(time).expect("an hour and 64 holds are far below the limit")
}
