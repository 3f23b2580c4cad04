//! Phrases with nothing uncertain in their strokes (request #107): the walk is their one run. It stores one state in each level,
//! the check accepts exactly when the run meets every due time, with the run's ends, and otherwise tells of the first stroke to
//! start that is late. Worked by hand, all of many small phrases, and random ones of all versions.

#[path = "common/certain_examples.rs"]
mod certain_examples;
#[path = "common/certain_kinds.rs"]
mod certain_kinds;
#[path = "common/counts.rs"]
mod counts;
#[path = "common/one_run.rs"]
mod one_run;
#[path = "common/rested_runs.rs"]
mod rested_runs;

use certain_examples::{CertainBell, CertainStroke, certain, certain_examples};
use certain_kinds::CertainKinds;
use one_run::{at, check_by_run, late_strokes, one_scenario, starting_order};
use reference::check::{Answer, Check, HOST_WORDS, check, check_phrase};
use reference::dispatch::{self, Scenario, Status};
use reference::events::by_events;
use reference::examples::{P, m1, m6, p_with};
use reference::playing::{Played, literally};
use reference::random::{
    CASES_PER_RESTED, CASES_PER_SHIFTED, CERTAIN_CASES, SEED, certain_case, rested_certain_case,
    shifted_certain_case,
};
use reference::reading::{Phrase, read};
use reference::walk::{State, Walk, walk_observed, words_per_state};
use rested_runs::RestedRuns;

/// Words that two levels of one state take.
fn pair(phrase: &Phrase) -> usize {
    2 * words_per_state(phrase) as usize
}

/// With room for one state, for one and all but a word of a second, for two, and as the host has it.
fn tables(phrase: &Phrase) -> [usize; 4] {
    let pair = pair(phrase);
    [pair, 2 * pair - 1, 2 * pair, HOST_WORDS]
}

/// The state after these strokes of the run have started: their ends, and each driver free from the moment on at which its
/// stroke ends, or from the last start on.
fn assert_state(phrase: &Phrase, played: &Played, started: &[usize], state: &State) {
    let set = started.iter().fold(0, |set, &stroke| set | 1 << stroke);
    assert_eq!(state.started, set);
    for &stroke in started {
        assert_eq!(state.ends[stroke], at(played.ends[stroke]), "{stroke}");
    }
    let start = started.last().map_or(0, |&stroke| played.starts[stroke]);
    let ends = started.iter().map(|&stroke| played.ends[stroke]);
    let mut free: Vec<u64> = ends.filter(|&end| end > start).collect();
    assert!(free.len() <= phrase.drivers);
    free.resize(phrase.drivers, start);
    free.sort_unstable();
    assert!(state.available.iter().copied().eq(free.into_iter().map(at)));
}

/// Walks with a table that has room for a state, and holds each level to one state, the run's, and to one edge, its next start.
fn walk_levels(phrase: &Phrase, played: &Played, table_words: usize) -> Walk {
    let order = starting_order(phrase, played);
    let mut shown = None;
    let walk = walk_observed(phrase, table_words, |choice, edge| {
        let level = choice.state.started.count_ones() as usize;
        let stroke = choice.candidate.stroke;
        if shown.is_none_or(|(last, _)| last < level) {
            assert_state(phrase, played, &order[..level], choice.state);
        }
        // Candidates of one state are shown by rising number; those of another of the same level would begin anew.
        assert!(shown < Some((level, stroke)), "another state in {level}");
        shown = Some((level, stroke));
        let is_next = stroke == order[level];
        let (start, end) = (played.starts[stroke], played.ends[stroke]);
        let found = edge.map(|edge| (edge.stroke, edge.earliest_start, edge.ends));
        assert_eq!(found, is_next.then_some((stroke, start, at(end))));
    });
    let told = late_strokes(phrase, played).first().copied();
    // A late stroke is an edge, but the level of its state is not completed: only those before it have a state.
    let (edges, states) = match order.iter().position(|&stroke| Some(stroke) == told) {
        Some(earlier) => (earlier + 1, earlier + 1),
        None => (order.len(), order.len() + 1),
    };
    assert_eq!((walk.edges, walk.states), (edges as u64, states as u64));
    assert_eq!(walk.peak, 1);
    walk
}

/// A phrase with its one run: verdict, ends, stroke told of and states, with room for one state or more; and without, 13.
fn assert_by_run(phrase: &Phrase, played: &Played) {
    let due = check_by_run(phrase, played);
    for table_words in tables(phrase) {
        let walk = walk_levels(phrase, played, table_words);
        assert_eq!(Check::from(walk), due, "{table_words} words");
    }
    let (number, place) = (13, 0);
    let full = Check::bare(Answer::Refused { number, place });
    for table_words in [0, pair(phrase) - 1] {
        assert_eq!(check_phrase(phrase, table_words), full);
    }
}

/// So late an end makes the literal run slow.
const LONG: u64 = 3_000;

/// The one run. Where it is short enough it is run literally too, which also shows the order of its starts.
fn run(phrase: &Phrase, scenario: &Scenario) -> (Played, bool) {
    let played = by_events(phrase, scenario);
    let last = played.ends.into_iter().max().unwrap_or(0);
    if last > LONG {
        return (played, false);
    }
    assert!(literally(phrase, scenario) == played);
    let (starts, state) = dispatch::play(phrase, scenario, last);
    assert!(state.strokes.iter().all(|&status| status == Status::Done));
    let order: Vec<usize> = starts.iter().map(|start| start.stroke).collect();
    assert_eq!(order, starting_order(phrase, &played));
    (played, true)
}

#[test]
fn phrases_worked_by_hand_are_their_one_run() {
    let (mut accepted, mut late) = (0, 0);
    for example in certain_examples() {
        for draft in example.drafts() {
            let name = example.name;
            let phrase = read(&draft.bytes()).unwrap();
            let count = phrase.strokes.len();
            let scenario = one_scenario(&phrase).unwrap();
            let played = literally(&phrase, &scenario);
            assert_eq!(played.ends[..count], example.ends, "{name}");
            assert!(by_events(&phrase, &scenario) == played, "{name}");
            assert_by_run(&phrase, &played);
            // By its own answer too, not only by what the run says.
            for table_words in tables(&phrase) {
                let check = check(&draft.bytes(), table_words);
                let answer = example.late.map_or(Answer::Accepted, |stroke| {
                    let ends = at(example.ends[stroke]);
                    Answer::Late { stroke, ends }
                });
                assert_eq!(check.answer, answer, "{name}");
                if example.late.is_none() {
                    let ends: Vec<_> = example.ends.iter().map(|&end| at(end)).collect();
                    assert_eq!(check.ends[..count], ends, "{name}");
                    assert_eq!(check.states, count as u64 + 1, "{name}");
                }
            }
            let count = match example.late {
                None => &mut accepted,
                Some(_) => &mut late,
            };
            *count += 1;
        }
    }
    assert_eq!((accepted, late), (6 * 3 + 4 + 1, (4 + 5 + 4) * 3 + 6 + 1));
}

/// What holds with nothing uncertain does not hold of all phrases.
#[test]
fn uncertain_phrases_may_take_more_states_than_one() {
    for file in [P.to_vec(), m6()] {
        let phrase = read(&file).unwrap();
        assert_eq!(one_scenario(&phrase), None);
        let answer = check(&file, pair(&phrase)).answer;
        assert!(matches!(answer, Answer::Refused { number: 13, .. }));
    }
    // M1 has one state in each level, but not one run.
    let phrase = read(&m1()).unwrap();
    assert_eq!(one_scenario(&phrase), None);
    let check = check(&m1(), pair(&phrase));
    assert!(check.is_accepted() && check.ends[0].moments() == 2);
    // P with stroke 0 called at 0, and at 5, is certain.
    let called_at_0 = read(&p_with(31, 0)).unwrap();
    let called_at_5 = read(&p_with(27, 5)).unwrap();
    for (phrase, ends) in [(called_at_0, [2, 6]), (called_at_5, [7, 4])] {
        let played = literally(&phrase, &one_scenario(&phrase).unwrap());
        assert_eq!(played.ends[..2], ends);
        assert_by_run(&phrase, &played);
    }
}

/// Every choice of one number below each limit.
fn choices(limits: Vec<usize>) -> impl Iterator<Item = Vec<usize>> {
    let count: usize = limits.iter().product();
    (0..count).map(move |mut rest| {
        let mut digit = |limit: &usize| {
            let digit = rest % limit;
            rest /= limit;
            digit
        };
        limits.iter().map(&mut digit).collect()
    })
}

/// How many small phrases were tried, and how many of them are accepted; by number, the stroke told of in the others.
#[derive(Debug, Default)]
struct Small {
    runs: u64,
    accepted: u64,
    told: [u64; 4],
    /// Others are late at the same moment.
    together: u64,
    /// One of smaller number is late.
    not_smallest: u64,
}

impl Small {
    /// A draft with each stroke due at its end or 1 before, in every way.
    fn add(&mut self, drivers: u8, bells: &[CertainBell], strokes: &[CertainStroke]) {
        let mut phrase = read(&certain(drivers, bells, strokes).bytes()).unwrap();
        let (played, _) = run(&phrase, &one_scenario(&phrase).unwrap());
        self.runs += 1;
        for is_late in choices(vec![2; strokes.len()]) {
            for (number, is_late) in is_late.into_iter().enumerate() {
                phrase.strokes[number].due = played.ends[number] - is_late as u64;
            }
            assert_by_run(&phrase, &played);
            match late_strokes(&phrase, &played)[..] {
                [] => self.accepted += 1,
                [told, ref others @ ..] => {
                    let then = |&other: &usize| played.starts[other] == played.starts[told];
                    self.told[told] += 1;
                    self.together += u64::from(others.iter().any(then));
                    self.not_smallest += u64::from(others.iter().any(|&other| other < told));
                }
            }
        }
    }
}

/// The ways in which up to three strokes share bells, each bell numbered when it is first struck.
const SHARED_BELLS: [&[u8]; 9] = [
    &[],
    &[0],
    &[0, 0],
    &[0, 1],
    &[0, 0, 0],
    &[0, 0, 1],
    &[0, 1, 0],
    &[0, 1, 1],
    &[0, 1, 2],
];

/// What up to three strokes may list, by number.
const LISTS: [&[&[u8]]; 3] = [&[&[]], &[&[], &[0]], &[&[], &[0], &[1], &[0, 1]]];

/// Up to three strokes on bells of their own or shared, on one driver or two: all holds of 1 and 2, ranks of 0 and 1, calls at 0
/// to 2, lists and rests of 0 to 2; each due at its end or 1 before.
#[test]
fn all_small_phrases_are_their_one_run() {
    let mut small = Small::default();
    for struck in SHARED_BELLS {
        let bell_count = struck.iter().map(|&bell| bell + 1).max().unwrap_or(1);
        let is_shared = |bell: u8| struck.iter().filter(|&&other| other == bell).count() > 1;
        let is_struck = |bell: u8| struck.contains(&bell);
        let mut limits = vec![2];
        for bell in 0..bell_count {
            let choose = |is: bool, count| if is { count } else { 1 };
            let (is_struck, is_shared) = (is_struck(bell), is_shared(bell));
            limits.extend([
                choose(is_struck, 2),
                choose(is_shared, 3),
                choose(is_struck, 2),
            ]);
        }
        for lists in &LISTS[..struck.len()] {
            limits.extend([3, lists.len()]);
        }
        for chosen in choices(limits) {
            let (bells, notes) = chosen[1..].split_at(3 * usize::from(bell_count));
            let bells: Vec<CertainBell> = (bells.chunks(3))
                .map(|bell| (1 + bell[0] as u16, bell[1] as u16, bell[2] as u8))
                .collect();
            let strokes: Vec<CertainStroke> = (struck.iter().zip(notes.chunks(2)))
                .zip(LISTS)
                .map(|((&bell, note), lists)| (bell, note[0] as u32, 0, lists[note[1]]))
                .collect();
            small.add(1 + chosen[0] as u8, &bells, &strokes);
        }
    }
    println!("up to three strokes: {small:?}");
    // None; 4 bells with 3 calls; 12 or 16 with 9 and 2 lists; 12, 3 x 48 or 64 with 27 and 8. Each on one driver and two.
    let by_strokes = [2, 2 * 4 * 3, 2 * 28 * 18, 2 * 220 * 216];
    let runs = by_strokes.iter().sum();
    assert_eq!((small.runs, small.accepted), (runs, runs));
    let late = by_strokes[1] + 3 * by_strokes[2] + 7 * by_strokes[3];
    assert_eq!(small.told.iter().sum::<u64>(), late);
    assert!(small.told[..3].iter().all(|&count| count > 100_000));
    assert!(small.together > 10_000 && small.not_smallest > 50_000);
}

/// Four strokes of their own bells on up to three drivers: all holds of 1 and 2, ranks of 0 and 1, and calls at 0 and 1.
#[test]
fn all_small_phrases_of_four_strokes_are_their_one_run() {
    let mut small = Small::default();
    for chosen in choices([vec![3], vec![2; 12]].concat()) {
        let (mut bells, mut strokes) = (Vec::new(), Vec::new());
        for (number, stroke) in (0..).zip(chosen[1..].chunks(3)) {
            bells.push((1 + stroke[0] as u16, 0, stroke[1] as u8));
            strokes.push((number, stroke[2] as u32, 0, &[][..]));
        }
        small.add(1 + chosen[0] as u8, &bells, &strokes);
    }
    println!("four strokes: {small:?}");
    let runs = 3 * 4_096;
    assert_eq!((small.runs, small.accepted), (runs, runs));
    assert_eq!(small.told.iter().sum::<u64>(), 15 * runs);
    assert!(small.told.iter().all(|&count| count > 30_000));
    assert!(small.together > 30_000 && small.not_smallest > 50_000);
}

/// So many phrases of a stream; gives how many of them have a shift.
fn assert_random(
    what: &str,
    version: u64,
    cases: u64,
    case: fn(u64, u64) -> Vec<u8>,
) -> (u64, RestedRuns) {
    let (mut kinds, mut rested) = (CertainKinds::new(), RestedRuns::new());
    let (mut literal, mut shifted) = (0, 0);
    for number in 0..cases {
        let phrase = read(&case(SEED, number)).unwrap();
        assert_eq!(phrase.version, version);
        let scenario = one_scenario(&phrase).unwrap_or_else(|| panic!("{number} is uncertain"));
        let (played, is_literal) = run(&phrase, &scenario);
        assert_by_run(&phrase, &played);
        kinds.add(&phrase, &scenario, &played);
        rested.add(&phrase, &scenario, &played);
        literal += u64::from(is_literal);
        shifted += u64::from(phrase.shift != 0);
    }
    kinds.print(what);
    println!("run literally too: {literal}; with a shift: {shifted}");
    kinds.demand_all(cases).unwrap();
    assert!(literal * 2 > cases);
    (shifted, rested)
}

#[test]
fn random_phrases_are_their_one_run() {
    let what = "phrases with nothing uncertain";
    let (shifted, _) = assert_random(what, 1, CERTAIN_CASES, certain_case);
    assert_eq!(shifted, 0);
}

#[test]
fn random_phrases_of_version_2_are_their_one_run() {
    let cases = CERTAIN_CASES / CASES_PER_SHIFTED;
    let what = "phrases of version 2 with nothing uncertain";
    let (shifted, _) = assert_random(what, 2, cases, shifted_certain_case);
    assert!(shifted * 2 > cases);
}

#[test]
fn random_phrases_of_version_3_are_their_one_run() {
    let cases = CERTAIN_CASES / CASES_PER_RESTED;
    let what = "phrases of version 3 with nothing uncertain";
    let (shifted, rested) = assert_random(what, 3, cases, rested_certain_case);
    rested.print();
    rested.demand(cases).unwrap();
    assert!(shifted * 2 > cases);
}
