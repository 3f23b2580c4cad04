//! Runs of the dispatch rule held against demand 3: all of small phrases, many of larger ones.
//!
//! SCENARIO_PHRASES small phrases (1,500) and as many with rests, and SCENARIO_CASES cases of the stream (6,000), for every
//! four one of version 2, and for every two one of version 3.

use reference::check::{Answer, Check, HOST_WORDS, check, check_phrase};
use reference::dispatch::{
    Breach, Scenario, State, Status, all_scenarios, demand_3, play, scenario_count, states,
};
use reference::draft::Draft;
use reference::examples::*;
use reference::random::{self, Case, Generator, TINY};
use reference::range::Range;
use reference::reading::{Phrase, read};

fn accepted(file: &[u8]) -> Option<(Phrase, Check)> {
    let phrase = read(file).ok()?;
    let check = check_phrase(&phrase, HOST_WORDS);
    check.is_accepted().then_some((phrase, check))
}

fn setting(name: &str, otherwise: u64) -> u64 {
    let count = std::env::var(name).map_or(otherwise, |value| value.parse().expect(name));
    assert!(count > 0, "{name} is 0: nothing to try");
    count
}

/// Holds a scenario against demand 3, and says all about it when it breaks it.
fn assert_demand_3(phrase: &Phrase, check: &Check, scenario: &Scenario) {
    let ends = &check.ends[..check.strokes];
    if let Err(breach) = demand_3(phrase, ends, scenario) {
        panic!("{breach:?}\n{phrase:#?}\n{ends:?}\n{scenario:?}");
    }
}

#[test]
fn marked_phrases_keep_demand_3_in_all_scenarios() {
    for file in [P.to_vec(), m1(), m5(), m6(), m7(), m8()] {
        let (phrase, check) = accepted(&file).unwrap();
        for scenario in all_scenarios(&phrase) {
            assert_demand_3(&phrase, &check, &scenario);
        }
    }
}

/// Their ends are reached, too: they were worked out by hand from the runs.
#[test]
fn phrases_with_rests_keep_demand_3_in_all_scenarios() {
    for example in rested_examples() {
        let (phrase, check) = accepted(&example.draft.bytes()).unwrap();
        for scenario in all_scenarios(&phrase) {
            assert_demand_3(&phrase, &check, &scenario);
        }
        let ends: Vec<u64> = example.ends.iter().map(|&(_, latest)| latest).collect();
        assert_eq!(worst_ends(&phrase), ends, "{}", example.name);
    }
}

/// The worst end of each stroke in all runs of a phrase.
fn worst_ends(phrase: &Phrase) -> Vec<u64> {
    let strokes = &phrase.strokes;
    let holds: u64 = (strokes.iter())
        .map(|stroke| stroke.hold.high + stroke.rest)
        .sum();
    let last = strokes
        .iter()
        .map(|stroke| stroke.call.high)
        .max()
        .unwrap_or(0)
        + holds;
    let mut worst = vec![0; strokes.len()];
    for scenario in all_scenarios(phrase) {
        let (starts, state) = play(phrase, &scenario, last);
        assert!(state.strokes.iter().all(|&status| status == Status::Done));
        for start in starts {
            worst[start.stroke] = worst[start.stroke].max(start.end);
        }
    }
    worst
}

/// 14 says that a phrase was not shown to be on time. Here every phrase is: its due times are the
/// worst ends of all its runs. Most are accepted, some are not.
#[test]
fn a_phrase_that_is_on_time_in_all_runs_may_get_14() {
    let mut random = Generator::new(7);
    let (mut phrases, mut late) = (0, 0);
    let wanted = setting("SCENARIO_PHRASES", 1_500);
    while phrases < wanted {
        let mut draft = random::draft(&mut random, &TINY);
        let Ok(phrase) = read(&draft.bytes()) else {
            continue;
        };
        if phrase.strokes.is_empty() || scenario_count(&phrase).is_none_or(|count| count > 3_000) {
            continue;
        }
        phrases += 1;
        for (note, end) in draft.notes.iter_mut().zip(worst_ends(&phrase)) {
            note.due = end as u32;
        }
        match check(&draft.bytes(), 1 << 20).answer {
            Answer::Accepted => {}
            Answer::Late { .. } => late += 1,
            refused => panic!("{refused:?}"),
        }
    }
    println!("{late} of {phrases} phrases that are on time in all runs get 14");
    assert!(late > 0 && late * 4 < phrases);
}

/// All runs of many small phrases; and most of the ends that are reported for them are reached.
fn assert_all_scenarios(draw: impl Fn(&mut Generator) -> Draft) {
    let mut random = Generator::new(7);
    let (mut phrases, mut scenarios, mut strokes, mut reached) = (0, 0, 0, 0);
    let wanted = setting("SCENARIO_PHRASES", 1_500);
    while phrases < wanted {
        let draft = draw(&mut random);
        let draft = random::tuned(&mut random, draft);
        let Some((phrase, check)) = accepted(&draft.bytes()) else {
            continue;
        };
        if scenario_count(&phrase).is_none_or(|count| count > 3_000) {
            continue;
        }
        phrases += 1;
        let last = check.ends.iter().map(|ends| ends.high).max().unwrap();
        let mut seen: Vec<Option<Range>> = vec![None; check.strokes];
        for scenario in all_scenarios(&phrase) {
            scenarios += 1;
            assert_demand_3(&phrase, &check, &scenario);
            for start in play(&phrase, &scenario, last).0 {
                let end = Range::new(start.end, start.end);
                let seen = &mut seen[start.stroke];
                *seen = Some(seen.map_or(end, |ends| ends.widened(end)));
            }
        }
        strokes += check.strokes;
        reached += (0..check.strokes)
            .filter(|&stroke| seen[stroke] == Some(check.ends[stroke]))
            .count();
    }
    println!("{phrases} phrases, {scenarios} scenarios");
    println!("both reported ends reached by {reached} of {strokes} strokes");
    // A check that reports far wider ends than runs reach would keep demand 3 as well.
    assert!(reached * 4 > strokes * 3);
}

#[test]
fn small_phrases_keep_demand_3_in_all_scenarios() {
    assert_all_scenarios(|random| random::draft(random, &TINY));
}

#[test]
fn small_phrases_with_rests_keep_demand_3_in_all_scenarios() {
    assert_all_scenarios(random::small_rested);
}

/// So many cases of a stream, where they are accepted.
fn assert_random_scenarios(cases: u64, case: fn(u64, u64) -> Case) {
    let mut random = Generator::new(8);
    let (mut phrases, mut strokes, mut scenarios) = (0, 0, 0);
    for number in 0..cases {
        let Some((phrase, check)) = accepted(&case(8, number).file) else {
            continue;
        };
        // Long runs are walked millisecond by millisecond too: a few are enough.
        let last = check.ends.iter().map(|ends| ends.high).max().unwrap();
        let times = if last < 2_000 {
            20
        } else {
            u64::from(number % 100 == 0)
        };
        for _ in 0..times {
            assert_demand_3(&phrase, &check, &random::scenario(&mut random, &phrase));
        }
        phrases += u64::from(times > 0);
        strokes += check.strokes as u64 * u64::from(times > 0);
        scenarios += times;
    }
    println!("{phrases} phrases with {strokes} strokes, {scenarios} scenarios");
    assert!(phrases > 0);
}

#[test]
fn larger_phrases_keep_demand_3_in_random_scenarios() {
    assert_random_scenarios(setting("SCENARIO_CASES", 6_000), random::case);
}

#[test]
fn shifted_phrases_keep_demand_3_in_random_scenarios() {
    let cases = setting("SCENARIO_CASES", 6_000).div_ceil(4);
    assert_random_scenarios(cases, random::shifted_case);
}

#[test]
fn rested_phrases_keep_demand_3_in_random_scenarios() {
    let cases = setting("SCENARIO_CASES", 6_000).div_ceil(2);
    assert_random_scenarios(cases, random::rested_case);
}

#[test]
fn a_run_is_what_the_rule_says() {
    // Stroke 1 goes first by rank but waits for 0; stroke 2 is called at 3 and takes a driver.
    let phrase = read(&m6()).unwrap();
    let scenario = Scenario {
        calls: vec![0, 0, 3],
        holds: vec![4, 1, 2],
    };
    use Status::{Done, Holding, Waiting};
    let expected = [
        ([Holding(4), Waiting, Waiting], 1),
        ([Holding(4), Waiting, Waiting], 1),
        ([Holding(4), Waiting, Waiting], 1),
        ([Holding(4), Waiting, Holding(5)], 0),
        ([Done, Holding(5), Holding(5)], 0),
        ([Done, Done, Done], 2),
        ([Done, Done, Done], 2),
    ];
    let expected = expected.map(|(strokes, free)| State {
        strokes: strokes.to_vec(),
        free,
    });
    assert_eq!(states(&phrase, &scenario, 6), expected);
}

/// Stroke 1 is the second of bell 0, which rests for 3; stroke 2 is called then, has the lesser rank, and holds so long. Stroke
/// 0 holds for 2, stroke 1 for 1.
fn assert_run_with_rests(call: u64, hold: u64, expected: [([Status; 3], usize); 9]) {
    let strokes: [RestedStroke; 3] = [(0, 0, 0, 99, &[]), (0, 0, 0, 99, &[]), (1, 0, 9, 99, &[])];
    let file = rested(1, &[(1, 2, 3, 1), (1, 4, 0, 2)], &strokes).bytes();
    let scenario = Scenario {
        calls: vec![0, 0, call],
        holds: vec![2, 1, hold],
    };
    let expected = expected.map(|(strokes, free)| State {
        strokes: strokes.to_vec(),
        free,
    });
    assert_eq!(states(&read(&file).unwrap(), &scenario, 8), expected);
}

#[test]
fn a_run_with_rests_is_what_the_rule_says() {
    use Status::{Done, Holding, Waiting};
    // Done at 2, its bell has rested at 5; the driver is free from 2 on, and stroke 2 is called at 3 and holds until 7.
    let in_between = [
        ([Holding(2), Waiting, Waiting], 0),
        ([Holding(2), Waiting, Waiting], 0),
        ([Done, Waiting, Waiting], 1),
        ([Done, Waiting, Holding(7)], 0),
        ([Done, Waiting, Holding(7)], 0),
        ([Done, Waiting, Holding(7)], 0),
        ([Done, Waiting, Holding(7)], 0),
        ([Done, Holding(8), Done], 0),
        ([Done, Done, Done], 1),
    ];
    assert_run_with_rests(3, 4, in_between);
    // Called at 5, stroke 2 finds that stroke 1 has rested and goes before it.
    let after = [
        ([Holding(2), Waiting, Waiting], 0),
        ([Holding(2), Waiting, Waiting], 0),
        ([Done, Waiting, Waiting], 1),
        ([Done, Waiting, Waiting], 1),
        ([Done, Waiting, Waiting], 1),
        ([Done, Holding(6), Waiting], 0),
        ([Done, Done, Holding(8)], 0),
        ([Done, Done, Holding(8)], 0),
        ([Done, Done, Done], 1),
    ];
    assert_run_with_rests(5, 2, after);
}

#[test]
fn a_start_before_its_bell_has_rested_is_noticed() {
    let (mut phrase, check) = accepted(&rested_examples()[0].draft.bytes()).unwrap();
    let scenario = all_scenarios(&phrase).next().unwrap();
    assert_eq!(demand_3(&phrase, &check.ends[..2], &scenario), Ok(()));
    // A run that knows of no rest, or of a shorter one, on a bell that has one.
    let wide = [Range::new(0, 20); 2];
    phrase.strokes.iter_mut().for_each(|stroke| stroke.due = 20);
    for rest in [0, 2] {
        phrase.strokes[1].rest = rest;
        let unrested = Breach::Unrested {
            first: 0,
            second: 1,
        };
        assert_eq!(demand_3(&phrase, &wide, &scenario), Err(unrested));
    }
}

#[test]
fn each_breach_is_noticed() {
    let (phrase, check) = accepted(&P).unwrap();
    let ends = check.ends[..2].to_vec();
    let broken_by = |phrase: &Phrase, ends: &[Range]| {
        all_scenarios(phrase).find_map(|scenario| demand_3(phrase, ends, &scenario).err())
    };
    assert_eq!(broken_by(&phrase, &ends), None);

    for stroke in 0..2 {
        for (low, high) in [(1, 0), (0, 1)] {
            let mut narrower = ends.clone();
            narrower[stroke].low += low;
            narrower[stroke].high -= high;
            assert!(broken_by(&phrase, &narrower).is_some(), "stroke {stroke}");
        }
    }
    assert!(matches!(
        broken_by(&phrase, &[Range::new(2, 5), Range::new(4, 5)]),
        Some(Breach::NotQuiet { .. })
    ));

    let mut stricter = phrase.clone();
    stricter.strokes[0].due = 6;
    assert_eq!(
        broken_by(&stricter, &ends),
        Some(Breach::AfterDue { stroke: 0, end: 7 })
    );

    // Two strokes of one bell that do not wait for each other, on two drivers.
    let mut careless = phrase;
    careless.drivers = 2;
    careless.strokes[1].bell = 0;
    let wide = [Range::new(0, 20); 2];
    careless
        .strokes
        .iter_mut()
        .for_each(|stroke| stroke.due = 20);
    assert!(matches!(
        broken_by(&careless, &wide),
        Some(Breach::Overlap { .. })
    ));
}
