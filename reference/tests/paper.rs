//! The paper's steps: at every candidate that random walks come to, its one comparison says what document 01's two say, with
//! rests too; and states worked by hand.

#[path = "common/counts.rs"]
mod counts;

use counts::Counts;
use reference::check::HOST_WORDS;
use reference::examples::{m6, m7, marked, rested_examples};
use reference::paper::{Steps, steps};
use reference::random::{Case, at_zero_case, case, rested_case};
use reference::range::Range;
use reference::reading::{Phrase, Stroke, read};
use reference::walk::{Choice, Edge, Outcome, walk_observed};

/// So many phrases of the stream, and as many with calls at 0.
const PHRASES: u64 = 10_000;
const SEED: u64 = 103;

/// Whether a candidate may go next.
type Rule = fn(&Choice, &Steps) -> bool;

/// Rules that are not the paper's. What is tried here has to tell each of them from it.
const WRONG: [(&str, Rule); 7] = [
    ("LST = thigh", |_, s| {
        s.est <= s.thigh.map_or(s.twc, |thigh| s.twc.min(thigh))
    }),
    ("clipped LST", |_, s| s.est <= s.lst.max(0)),
    ("wrapped LST", |_, s| {
        let before = |thigh: i64| (thigh as u64).wrapping_sub(1);
        s.est as u64 <= (s.twc as u64).min(s.thigh.map_or(u64::MAX, before))
    }),
    ("EST < LST", |_, s| s.est < s.lst),
    ("no twc", |_, s| s.thigh.is_none_or(|thigh| s.est < thigh)),
    ("no thigh", |_, s| s.est <= s.twc),
    ("shared waits", |choice, s| {
        s.est <= s.twc && smallest_rmax_before(choice).is_none_or(|thigh| s.est < thigh)
    }),
];

/// What thigh would be if no waits were left out.
fn smallest_rmax_before(choice: &Choice) -> Option<i64> {
    (choice.candidates.iter())
        .filter(|j| (choice.phrase).goes_before(j.stroke, choice.candidate.stroke))
        .map(|j| j.ready.high as i64)
        .min()
}

/// For each wrong rule, whether it answers otherwise.
fn told_apart(choice: &Choice, steps: &Steps) -> [bool; 7] {
    WRONG.map(|(_, rule)| rule(choice, steps) != steps.is_eligible)
}

/// Holds a candidate's steps against document 01's two comparisons and the walk's edge, which is made by them.
fn assert_agree(choice: &Choice, steps: &Steps, edge: Option<&Edge>) {
    let until_twc = steps.est <= steps.twc;
    let before_thigh = steps.thigh.is_none_or(|thigh| steps.est < thigh);
    assert_eq!(steps.is_eligible, until_twc && before_thigh, "{choice:?}");

    let goes = (steps.is_eligible).then_some([steps.est, steps.eft, steps.lft]);
    let walked = edge.map(|edge| {
        assert_eq!(edge.stroke, choice.candidate.stroke);
        [edge.earliest_start, edge.ends.low, edge.ends.high].map(|time| time as i64)
    });
    assert_eq!(goes, walked, "{choice:?}");

    // Below zero by one only, and only because of thigh.
    assert!(steps.lst >= -1, "{choice:?}");
    assert_eq!(steps.lst < 0, steps.thigh == Some(0), "{choice:?}");
}

struct Met {
    phrase_count: u64,
    candidate_count: u64,
    phrases: Counts<6>,
    candidates: Counts<10>,
    wrong: Counts<7>,
}

impl Met {
    fn new() -> Met {
        Met {
            phrase_count: 0,
            candidate_count: 0,
            phrases: Counts::new(
                "phrases",
                [
                    "accepted",
                    "with a full level",
                    "late",
                    "with several drivers",
                    "with shared waits",
                    "with a latest start below zero",
                ],
            ),
            candidates: Counts::new(
                "candidates",
                [
                    "eligible",
                    "EST > twc",
                    "EST >= thigh",
                    "both",
                    "thigh infinite",
                    "LST = -1",
                    "LST = -1 and EST = 0",
                    "eligible with EST = LST",
                    // Where both ends from one start would be wrong, and where F from twc.
                    "eligible with EST < LST",
                    "eligible with LST < twc",
                ],
            ),
            wrong: Counts::new(
                "candidates that wrong rules answer otherwise",
                WRONG.map(|(name, _)| name),
            ),
        }
    }

    /// Walks a phrase, and compares both ways at all candidates.
    fn walk(&mut self, case: &Case) {
        let Ok(phrase) = read(&case.file) else {
            return;
        };
        let mut below_zero = false;
        let walk = walk_observed(&phrase, case.table_words, |choice, edge| {
            let steps = steps(choice);
            assert_agree(choice, &steps, edge);
            self.add_candidate(choice, &steps);
            below_zero |= steps.lst < 0;
        });
        self.phrase_count += 1;
        self.phrases.add([
            matches!(walk.outcome, Outcome::Accepted { .. }),
            matches!(walk.outcome, Outcome::Full { .. }),
            matches!(walk.outcome, Outcome::Late { .. }),
            phrase.drivers > 1,
            has_shared_waits(&phrase),
            below_zero,
        ]);
    }

    fn add_candidate(&mut self, choice: &Choice, steps: &Steps) {
        let after_twc = steps.est > steps.twc;
        let from_thigh = steps.thigh.is_some_and(|thigh| steps.est >= thigh);
        self.candidate_count += 1;
        self.candidates.add([
            steps.is_eligible,
            after_twc,
            from_thigh,
            after_twc && from_thigh,
            steps.thigh.is_none(),
            steps.lst == -1,
            steps.lst == -1 && steps.est == 0,
            steps.is_eligible && steps.est == steps.lst,
            steps.is_eligible && steps.est < steps.lst,
            steps.is_eligible && steps.lst < steps.twc,
        ]);
        self.wrong.add(told_apart(choice, steps));
    }

    fn print(&self) {
        println!(
            "{} phrases, {} candidates",
            self.phrase_count, self.candidate_count
        );
        self.phrases.print();
        self.candidates.print();
        self.wrong.print();
    }
}

fn has_shared_waits(phrase: &Phrase) -> bool {
    let share = |a: &[usize], b: &[usize]| a.iter().any(|wait| b.contains(wait));
    (phrase.strokes.iter().enumerate())
        .any(|(i, a)| (phrase.strokes[..i].iter()).any(|b| share(&a.waits, &b.waits)))
}

#[test]
fn one_comparison_says_what_two_say_at_every_candidate() {
    let mut met = Met::new();
    for number in 0..PHRASES {
        met.walk(&case(SEED, number));
        met.walk(&at_zero_case(SEED, number));
    }
    met.print();
    assert!(met.phrase_count > PHRASES && met.candidate_count > 5_000_000);
    met.phrases.demand(met.phrase_count, 5).unwrap();
    met.candidates.demand(met.candidate_count, 100).unwrap();
    met.wrong.demand(met.candidate_count, 1_000).unwrap();
}

/// How long a stroke has to rest after one of its waits, by some rule.
type Rest = fn(&Stroke, usize) -> u64;

const RIGHT: Rest = |stroke, wait| stroke.rest_after(wait);
const NONE: Rest = |_, _| 0;
/// Only where the note does not list the predecessor.
const UNLISTED: Rest = |stroke, wait| match stroke.added == Some(wait) {
    true => stroke.rest,
    false => 0,
};

/// Whether thigh leaves a shared wait out: by its rest for `j`, which goes before, and for `i`.
type LeavesOut = fn(u64, u64) -> bool;

/// How rests count where it is decided whether a candidate may go next.
struct Rests {
    rmin: Rest,
    rmax: Rest,
    thigh: Rest,
    leaves_out: LeavesOut,
}

const RULE: Rests = Rests {
    rmin: RIGHT,
    rmax: RIGHT,
    thigh: RIGHT,
    leaves_out: |j, i| j <= i,
};

/// Rules that are not those of request #106. What is tried here has to tell each of them from it.
const WRONG_RESTS: [(&str, Rests); 8] = [
    ("no rest in Rmin", Rests { rmin: NONE, ..RULE }),
    ("no rest in Rmax", Rests { rmax: NONE, ..RULE }),
    // A shared wait is left out by its rests all the same.
    (
        "no rest in thigh",
        Rests {
            thigh: NONE,
            ..RULE
        },
    ),
    (
        "all shared waits left out",
        Rests {
            leaves_out: |_, _| true,
            ..RULE
        },
    ),
    (
        "no shared wait left out",
        Rests {
            leaves_out: |_, _| false,
            ..RULE
        },
    ),
    (
        "shared waits of equal rests not left out",
        Rests {
            leaves_out: |j, i| j < i,
            ..RULE
        },
    ),
    (
        "only shared waits of equal rests left out",
        Rests {
            leaves_out: |j, i| j == i,
            ..RULE
        },
    ),
    (
        "no rest after a listed predecessor",
        Rests {
            rmin: UNLISTED,
            rmax: UNLISTED,
            thigh: UNLISTED,
            ..RULE
        },
    ),
];

impl Rests {
    /// Whether the candidate may go next if rests count so.
    fn may_go(&self, choice: &Choice) -> bool {
        let strokes = &choice.phrase.strokes;
        let i = &strokes[choice.candidate.stroke];
        let ends = |wait: usize| choice.state.ends[wait];
        let low = i.waits.iter().map(|&w| ends(w).low + (self.rmin)(i, w));
        let est = low.fold(i.call.low.max(choice.state.available[0].low), u64::max);
        let rmax = |stroke: &Stroke| {
            let high = stroke.waits.iter();
            let high = high.map(|&w| ends(w).high + (self.rmax)(stroke, w));
            high.fold(stroke.call.high, u64::max)
        };
        let candidates = || choice.candidates.iter().map(|c| c.stroke);
        let first_rmax = candidates().map(|stroke| rmax(&strokes[stroke])).min();
        let twc = choice.state.available[0].high.max(first_rmax.unwrap_or(0));
        let goes_before = |&j: &usize| choice.phrase.goes_before(j, choice.candidate.stroke);
        let mut before = candidates().filter(goes_before);
        est <= twc && before.all(|j| est < self.th(choice, &strokes[j], i))
    }

    /// From when on `j` is certainly ready where `i` is.
    fn th(&self, choice: &Choice, j: &Stroke, i: &Stroke) -> u64 {
        let counts = |wait: usize| {
            let (for_j, for_i) = (j.rest_after(wait), i.rest_after(wait));
            !i.waits.contains(&wait) || !(self.leaves_out)(for_j, for_i)
        };
        (j.waits.iter())
            .filter(|&&wait| counts(wait))
            .map(|&wait| choice.state.ends[wait].high + (self.thigh)(j, wait))
            .fold(j.call.high, u64::max)
    }
}

/// For waits that a candidate shares with one that goes before: whether their rest is larger for that, equal or smaller.
fn shared_rests(choice: &Choice) -> [bool; 3] {
    let i = &choice.phrase.strokes[choice.candidate.stroke];
    let mut met = [false; 3];
    for j in choice.candidates {
        if choice.phrase.goes_before(j.stroke, choice.candidate.stroke) {
            let j = &choice.phrase.strokes[j.stroke];
            for &wait in j.waits.iter().filter(|wait| i.waits.contains(wait)) {
                let (for_j, for_i) = (j.rest_after(wait), i.rest_after(wait));
                // Two strokes of one bell are never candidates together.
                assert!(for_j == 0 || for_i == 0);
                let kinds = [for_j > for_i, for_j == for_i, for_j < for_i];
                met = [0, 1, 2].map(|kind| met[kind] || kinds[kind]);
            }
        }
    }
    met
}

#[test]
fn rests_decide_at_candidates_of_every_kind() {
    let mut shared = Counts::new(
        "candidates with a shared wait that rests for the one before",
        ["longer", "equally long", "shorter"],
    );
    let mut wrong = Counts::new(
        "candidates that wrong rules for rests answer otherwise",
        WRONG_RESTS.map(|(name, _)| name),
    );
    let (mut phrases, mut candidates) = (0, 0);
    for case in (0..PHRASES).map(|number| rested_case(SEED, number)) {
        let Ok(phrase) = read(&case.file) else {
            continue;
        };
        phrases += 1;
        walk_observed(&phrase, case.table_words, |choice, edge| {
            let steps = steps(choice);
            assert_agree(choice, &steps, edge);
            assert_eq!(RULE.may_go(choice), steps.is_eligible, "{choice:?}");
            candidates += 1;
            shared.add(shared_rests(choice));
            wrong.add(WRONG_RESTS.map(|(_, rests)| rests.may_go(choice) != steps.is_eligible));
        });
    }
    println!("{phrases} phrases, {candidates} candidates");
    shared.print();
    wrong.print();
    assert!(phrases > PHRASES / 2 && candidates > 1_000_000);
    shared.demand(candidates, 2_000).unwrap();
    wrong.demand(candidates, 20_000).unwrap();
}

/// The example of this name, worked out where stroke 0 alone has started.
fn work_out_rested(name: &str, stroke: usize) -> Worked {
    let examples = rested_examples();
    let example = examples.iter().find(|example| example.name == name);
    work_out(&example.unwrap().draft.bytes(), &[0], stroke)
}

#[test]
fn a_wait_that_rests_longer_for_the_one_before_counts() {
    let name = "a shared wait that rests longer for the one before";
    let Worked { ready, steps, .. } = work_out_rested(name, 2);
    assert_eq!(ready, ranges([(7, 9), (2, 4)]));
    assert_eq!((steps.est, steps.twc, steps.thigh), (2, 4, Some(9)));
    assert_eq!((steps.eft, steps.lft, steps.is_eligible), (5, 7, true));
    // Stroke 1 itself rests for too long to go next.
    let Worked { steps, .. } = work_out_rested(name, 1);
    assert_eq!((steps.est, steps.twc, steps.thigh), (7, 4, None));
    assert!(!steps.is_eligible);
}

#[test]
fn a_wait_that_rests_equally_long_or_shorter_for_the_one_before_is_left_out() {
    let name = "a shared wait without a rest";
    let Worked { ready, steps, .. } = work_out_rested(name, 2);
    assert_eq!(ready, ranges([(2, 4), (2, 4)]));
    assert_eq!((steps.est, steps.twc, steps.thigh), (2, 4, Some(0)));
    assert!(!steps.is_eligible);

    let name = "a shared wait that rests shorter for the one before";
    let Worked { ready, steps, .. } = work_out_rested(name, 2);
    assert_eq!(ready, ranges([(2, 12), (7, 17)]));
    assert_eq!((steps.est, steps.twc, steps.thigh), (7, 12, Some(0)));
    assert!(!steps.is_eligible);
}

#[test]
fn a_rest_of_the_one_before_lets_a_lesser_stroke_go() {
    // Stroke 0 is no wait of stroke 2, so its end at 2 counts for stroke 1 with the rest of 3.
    let Worked { ready, steps, .. } = work_out_rested("a lesser stroke goes in between", 2);
    assert_eq!(ready, ranges([(5, 5), (0, 0)]));
    assert_eq!((steps.est, steps.twc, steps.thigh), (2, 2, Some(5)));
    assert_eq!((steps.eft, steps.lft, steps.is_eligible), (6, 6, true));
}

/// What is said of a candidate in the one state of a walk in which just these strokes have started.
struct Worked {
    available: Vec<Range>,
    /// Of all candidates, by rising number.
    ready: Vec<Range>,
    steps: Steps,
    /// The wrong rules that answer otherwise.
    wrong: Vec<&'static str>,
}

fn work_out(file: &[u8], started: &[usize], stroke: usize) -> Worked {
    let phrase = read(file).unwrap();
    let started = started.iter().fold(0, |set, i| set | 1 << i);
    let mut found = Vec::new();
    walk_observed(&phrase, HOST_WORDS, |choice, edge| {
        let steps = steps(choice);
        assert_agree(choice, &steps, edge);
        if choice.state.started == started && choice.candidate.stroke == stroke {
            let rules = WRONG.iter().zip(told_apart(choice, &steps));
            found.push(Worked {
                available: choice.state.available.clone(),
                ready: choice.candidates.iter().map(|c| c.ready).collect(),
                steps,
                wrong: (rules.filter(|(_, is_told)| *is_told))
                    .map(|((name, _), _)| *name)
                    .collect(),
            });
        }
    });
    assert_eq!(found.len(), 1, "there is one such state");
    found.remove(0)
}

fn ranges<const N: usize>(limits: [(u64, u64); N]) -> Vec<Range> {
    limits.map(|(low, high)| Range::new(low, high)).to_vec()
}

/// Without twc the latest start would be 21, with the first Rmax instead of the smallest 20; with both ends from one
/// start they would be 18..20 or 21..23.
#[test]
fn example_4_of_the_paper() {
    let file = marked(
        2,
        &[
            (0, 0, 8, 15, 1, &[]),
            (0, 0, 13, 20, 2, &[]), // the paper's J2
            (9, 12, 5, 7, 4, &[1]), // Ji
            (10, 16, 1, 1, 5, &[]), // Jx
            (14, 22, 1, 1, 3, &[]), // Jh
        ],
    );
    let worked = work_out(&file, &[0, 1], 2);
    assert_eq!(worked.available, ranges([(8, 15), (13, 20)]));
    assert_eq!(worked.ready, ranges([(13, 20), (10, 16), (14, 22)]));
    let expected = Steps {
        est: 13,
        thigh: Some(22),
        twc: 16,
        lst: 16,
        is_eligible: true,
        eft: 13 + 5,
        lft: 16 + 7,
    };
    assert_eq!(worked.steps, expected);
}

#[test]
fn a_latest_start_below_zero_is_not_clipped() {
    // M7: stroke 0 goes before and is certainly called at 0.
    let worked = work_out(&m7(), &[], 1);
    let expected = Steps {
        est: 0,
        thigh: Some(0),
        twc: 0,
        lst: -1,
        is_eligible: false,
        eft: 1,
        lft: 0,
    };
    assert_eq!(worked.steps, expected);
    let wrong = ["LST = thigh", "clipped LST", "wrapped LST", "no thigh"];
    assert_eq!(worked.wrong, wrong);
}

#[test]
fn a_latest_start_may_be_below_zero_in_later_states() {
    // Strokes 1 and 2 wait for stroke 0, and so stroke 1 is ready whenever stroke 2 is.
    let file = marked(
        2,
        &[
            (0, 0, 5, 9, 1, &[]),
            (0, 0, 1, 1, 2, &[0]),
            (0, 0, 3, 4, 3, &[0]),
        ],
    );
    let worked = work_out(&file, &[0], 2);
    assert_eq!(worked.available, ranges([(0, 0), (5, 9)]));
    assert_eq!(worked.ready, ranges([(5, 9), (5, 9)]));
    let expected = Steps {
        est: 5,
        thigh: Some(0),
        twc: 9,
        lst: -1,
        is_eligible: false,
        eft: 8,
        lft: 3,
    };
    assert_eq!(worked.steps, expected);
    assert_eq!(worked.wrong, ["wrapped LST", "no thigh", "shared waits"]);
}

#[test]
fn one_moment_is_enough() {
    // M7: the earliest start of stroke 0 is its latest too.
    let Worked { steps, wrong, .. } = work_out(&m7(), &[], 0);
    assert_eq!((steps.est, steps.lst, steps.is_eligible), (0, 0, true));
    assert_eq!(wrong, ["EST < LST"]);
}

#[test]
fn a_candidate_may_be_too_late_for_twc_alone() {
    // Stroke 0 is certainly ready long before stroke 1, although this and stroke 2 go before it.
    let strokes = [
        (0, 0, 1, 1, 3, &[][..]),
        (3, 5, 1, 1, 2, &[]),
        (9, 9, 1, 1, 1, &[]),
    ];
    let Worked { steps, wrong, .. } = work_out(&marked(1, &strokes), &[], 1);
    assert_eq!((steps.est, steps.twc, steps.thigh), (3, 0, Some(9)));
    assert_eq!((steps.lst, steps.is_eligible), (0, false));
    assert_eq!(wrong, ["no twc"]);

    // With no thigh either, nothing would hold stroke 1 back.
    let Worked { steps, wrong, .. } = work_out(&marked(1, &strokes[..2]), &[], 1);
    assert_eq!((steps.est, steps.twc, steps.thigh), (3, 0, None));
    assert_eq!((steps.lst, steps.is_eligible), (0, false));
    assert_eq!(wrong, ["no twc"]);
}

#[test]
fn a_candidate_may_be_too_late_for_thigh_alone() {
    // Stroke 1 is certainly called by 3, before any driver is certainly free.
    let file = |earliest| {
        marked(
            1,
            &[
                (0, 0, earliest, 10, 1, &[]),
                (0, 3, 1, 1, 2, &[]),
                (0, 20, 4, 6, 3, &[]),
            ],
        )
    };
    let Worked { steps, wrong, .. } = work_out(&file(3), &[0], 2);
    assert_eq!((steps.est, steps.twc, steps.thigh), (3, 10, Some(3)));
    assert_eq!((steps.lst, steps.is_eligible), (2, false));
    assert_eq!(wrong, ["LST = thigh", "no thigh"]);

    // A driver may be free one moment earlier: the ends show which start is the latest.
    let Worked { steps, .. } = work_out(&file(2), &[0], 2);
    assert_eq!((steps.est, steps.twc, steps.thigh), (2, 10, Some(3)));
    assert_eq!((steps.lst, steps.is_eligible), (2, true));
    assert_eq!((steps.eft, steps.lft), (2 + 4, 2 + 6));
}

#[test]
fn a_stroke_that_still_waits_holds_none_back() {
    // M6: stroke 1 goes before stroke 0, but waits for it and so is no candidate.
    let Worked { steps, .. } = work_out(&m6(), &[], 0);
    assert_eq!((steps.thigh, steps.lst, steps.is_eligible), (None, 0, true));
}
