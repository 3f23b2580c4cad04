//! Phrases with nothing uncertain in their strokes, their runs worked out by hand.

use reference::draft::Draft;
use reference::examples::{RestedBell, RestedStroke, rested};

/// A bell: its hold, its rest and its rank.
pub type CertainBell = (u16, u16, u8);
/// A stroke: its bell, its call, its due time and the strokes that it lists.
pub type CertainStroke<'a> = (u8, u32, u32, &'a [u8]);

/// A draft of version 3 with shift 0.
pub fn certain(drivers: u8, bells: &[CertainBell], strokes: &[CertainStroke]) -> Draft {
    let bells: Vec<RestedBell> = (bells.iter())
        .map(|&(hold, rest, rank)| (hold, hold, rest, rank))
        .collect();
    let strokes: Vec<RestedStroke> = (strokes.iter())
        .map(|&(bell, call, due, waits)| (bell, call, call, due, waits))
        .collect();
    rested(drivers, &bells, &strokes)
}

pub struct CertainExample {
    pub name: &'static str,
    pub draft: Draft,
    /// In the one run.
    pub ends: Vec<u64>,
    /// The stroke that is told of; none where the phrase is accepted.
    pub late: Option<usize>,
}

impl CertainExample {
    fn new(name: &'static str, draft: Draft, ends: &[u64], late: Option<usize>) -> CertainExample {
        CertainExample {
            name,
            draft,
            ends: ends.to_vec(),
            late,
        }
    }

    /// The same phrase in every version that has room for its rests.
    pub fn drafts(&self) -> Vec<Draft> {
        let mut drafts = vec![self.draft.clone()];
        if self.draft.bells.iter().all(|bell| bell.rest == Some(0)) {
            let mut first = self.draft.clone();
            (first.version, first.shift) = (1, None);
            first.bells.iter_mut().for_each(|bell| bell.rest = None);
            drafts.extend(first.clone().shifted(-5));
            drafts.push(first);
        }
        drafts
    }
}

pub fn certain_examples() -> Vec<CertainExample> {
    let mut all = accepted_examples();
    all.extend(one_late());
    all.extend(late_at_one_moment());
    all.extend(late_one_after_another());
    all.extend(with_rests());
    all.push(longest(635_000, None));
    // Stroke 63 starts at 630000, and no other is late.
    all.push(longest(634_999, Some(63)));
    all
}

fn accepted_examples() -> Vec<CertainExample> {
    let mut silent = certain(1, &[(2, 0, 1), (7, 0, 0)], &[(0, 3, 5, &[])]);
    silent.bells[1].cb = 5_000;
    let mut no_strokes = certain(8, &[(1, 0, 0)], &[]);
    no_strokes.bells[0].cb = 9;
    vec![
        CertainExample::new("no strokes", no_strokes, &[], None),
        CertainExample::new("a silent bell's hold may be uncertain", silent, &[5], None),
        CertainExample::new(
            "P with stroke 0 called at 5",
            certain(1, &P_BELLS, &[(0, 5, 7, &[]), (1, 0, 6, &[])]),
            &[7, 4],
            None,
        ),
        CertainExample::new(
            "P with both called at 0",
            certain(1, &P_BELLS, &[(0, 0, 2, &[]), (1, 0, 6, &[])]),
            &[2, 6],
            None,
        ),
        CertainExample::new(
            "M7, in which stroke 1 cannot go first",
            certain(
                1,
                &[(1, 0, 1), (1, 0, 1)],
                &[(0, 0, 1, &[]), (1, 0, 2, &[])],
            ),
            &[1, 2],
            None,
        ),
        // 0 ends at 3; 1 goes first by rank but waits for it; 2 takes the other driver at its call, until 5.
        CertainExample::new(
            "M6 with a hold of 3",
            certain(
                2,
                &[(3, 0, 2), (1, 0, 1), (2, 0, 3)],
                &[(0, 0, 3, &[]), (1, 0, 4, &[0]), (2, 3, 5, &[])],
            ),
            &[3, 4, 5],
            None,
        ),
    ]
}

const P_BELLS: [CertainBell; 2] = [(2, 0, 1), (4, 0, 2)];

fn one_late() -> Vec<CertainExample> {
    vec![
        CertainExample::new(
            "P with stroke 0 called at 5 and due at 6",
            certain(1, &P_BELLS, &[(0, 5, 6, &[]), (1, 0, 6, &[])]),
            &[7, 4],
            Some(0),
        ),
        CertainExample::new(
            "P with both called at 0 and stroke 1 due at 5",
            certain(1, &P_BELLS, &[(0, 0, 2, &[]), (1, 0, 5, &[])]),
            &[2, 6],
            Some(1),
        ),
        CertainExample::new(
            "a due time before the call",
            certain(1, &[(1, 0, 0)], &[(0, 3, 1, &[])]),
            &[4],
            Some(0),
        ),
        CertainExample::new(
            "an end after the latest due time that there is",
            certain(1, &[(1, 0, 0)], &[(0, 3_600_000, 3_600_000, &[])]),
            &[3_600_001],
            Some(0),
        ),
    ]
}

/// Several that are late start at the moment at which the first of them does.
fn late_at_one_moment() -> Vec<CertainExample> {
    let two = |ranks: [u8; 2]| {
        let bells = [(3, 0, ranks[0]), (2, 0, ranks[1])];
        certain(2, &bells, &[(0, 0, 2, &[]), (1, 0, 1, &[])])
    };
    // Three start at 0 and end at 2, when the other two start.
    let five = |last: u8| {
        let bells = [(2, 0, 1), (2, 0, 1), (2, 0, 1), (1, 0, 5), (1, 0, last)];
        let strokes: [CertainStroke; 5] = [
            (0, 0, 2, &[]),
            (1, 0, 2, &[]),
            (2, 0, 2, &[]),
            (3, 0, 2, &[]),
            (4, 0, 2, &[]),
        ];
        certain(3, &bells, &strokes)
    };
    vec![
        CertainExample::new("smaller rank", two([9, 1]), &[3, 2], Some(1)),
        CertainExample::new("smaller number", two([4, 4]), &[3, 2], Some(0)),
        CertainExample::new(
            "smaller rank and number, but a later end",
            two([1, 9]),
            &[3, 2],
            Some(0),
        ),
        CertainExample::new(
            "smaller number on drivers freed together",
            five(5),
            &[2, 2, 2, 3, 3],
            Some(3),
        ),
        CertainExample::new(
            "smaller rank on drivers freed together",
            five(4),
            &[2, 2, 2, 3, 3],
            Some(4),
        ),
    ]
}

/// Several are late, and the first of them to start is not the first in another order.
fn late_one_after_another() -> Vec<CertainExample> {
    vec![
        CertainExample::new(
            "the first to start, not the first to end",
            certain(
                2,
                &[(10, 0, 1), (1, 0, 1)],
                &[(0, 0, 9, &[]), (1, 1, 1, &[])],
            ),
            &[10, 2],
            Some(0),
        ),
        CertainExample::new(
            "the first to start, not the first by number",
            certain(
                1,
                &[(1, 0, 1), (2, 0, 1)],
                &[(0, 5, 5, &[]), (1, 0, 1, &[])],
            ),
            &[6, 2],
            Some(1),
        ),
        // Stroke 1 is called at 2 and waits for the driver until 4.
        CertainExample::new(
            "the first to start, not the first by rank",
            certain(
                1,
                &[(4, 0, 9), (1, 0, 0)],
                &[(0, 0, 3, &[]), (1, 2, 2, &[])],
            ),
            &[4, 5],
            Some(0),
        ),
        // The same with the first in time: the one that waited is told of.
        CertainExample::new(
            "one that waited for a driver",
            certain(
                1,
                &[(4, 0, 9), (1, 0, 0)],
                &[(0, 0, 4, &[]), (1, 2, 4, &[])],
            ),
            &[4, 5],
            Some(1),
        ),
    ]
}

fn with_rests() -> Vec<CertainExample> {
    // 0 ends at 2, and its bell is ready at 5.
    let twice = |due, waits| certain(1, &[(2, 3, 1)], &[(0, 0, 2, &[]), (0, 0, due, waits)]);
    // 1 goes before 2, but at 2 its bell still rests: 2 has the driver from 2 to 6.
    let between = |dues: [u32; 3]| {
        let strokes: [CertainStroke; 3] = [
            (0, 0, dues[0], &[]),
            (0, 0, dues[1], &[]),
            (1, 0, dues[2], &[]),
        ];
        certain(1, &[(2, 3, 1), (4, 0, 2)], &strokes)
    };
    // Both others wait for 0: 2 is ready at 2, 1 goes before it and rests until 7.
    let shared = |dues: [u32; 2]| {
        let strokes: [CertainStroke; 3] =
            [(0, 0, 2, &[]), (0, 0, dues[0], &[]), (1, 0, dues[1], &[0])];
        certain(1, &[(2, 5, 1), (3, 0, 2)], &strokes)
    };
    let (rested, between_ends, shared_ends) = ([2, 7], [2, 8, 6], [2, 9, 5]);
    vec![
        CertainExample::new("a rest", twice(7, &[]), &rested, None),
        CertainExample::new("late by a rest", twice(6, &[]), &rested, Some(1)),
        CertainExample::new("a listed predecessor", twice(7, &[0]), &rested, None),
        CertainExample::new("late, and listed", twice(6, &[0]), &rested, Some(1)),
        CertainExample::new("between", between([2, 8, 6]), &between_ends, None),
        CertainExample::new("all late", between([1, 7, 5]), &between_ends, Some(0)),
        CertainExample::new("both others", between([2, 7, 5]), &between_ends, Some(2)),
        CertainExample::new("the last", between([2, 7, 6]), &between_ends, Some(1)),
        CertainExample::new("a shared wait", shared([9, 5]), &shared_ends, None),
        CertainExample::new("late, and shared", shared([8, 4]), &shared_ends, Some(2)),
    ]
}

/// 64 strokes of one bell with the longest hold and rest: number n from 10000 n on. All but the last are due at their ends.
fn longest(last_due: u32, late: Option<usize>) -> CertainExample {
    let mut strokes: Vec<CertainStroke> = (0..64)
        .map(|n| (0, 0, 10_000 * n + 5_000, &[][..]))
        .collect();
    strokes[63].2 = last_due;
    let ends: Vec<u64> = (0..64).map(|n| 10_000 * n + 5_000).collect();
    let draft = certain(2, &[(5_000, 5_000, 7)], &strokes);
    CertainExample::new("the longest", draft, &ends, late)
}
