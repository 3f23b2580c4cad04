//! The library's runs of playings against this checker's: answers, every word of starts and ends, and the words beyond.
//!
//! COMPARE_COUNT phrases with a playing (20,000) of COMPARE_SEED (1), from number COMPARE_FIRST (0) on, for every four one of
//! version 2, and for every two one of version 3; and every playing of the marked phrases and of PLAYED_PHRASES small ones (600)
//! that are accepted, and of as many with rests.

#[path = "common/counts.rs"]
mod counts;
#[path = "common/differences.rs"]
mod differences;
#[path = "common/lent.rs"]
mod lent;
#[path = "common/played_kinds.rs"]
mod played_kinds;
#[path = "common/rested_kinds.rs"]
mod rested_kinds;
#[path = "common/rested_runs.rs"]
mod rested_runs;
#[path = "common/settings.rs"]
mod settings;
#[path = "common/shifted_kinds.rs"]
mod shifted_kinds;
#[path = "common/tally.rs"]
mod tally;
#[path = "common/was_10.rs"]
mod was_10;

use std::process::ExitCode;

use differences::{same, same_number};
use lent::Lent;
use played_kinds::{Kinds, is_long};
use reference::check::{Check, HOST_WORDS, check_phrase};
use reference::dispatch::{Scenario, all_scenarios, scenario_count};
use reference::draft::{Draft, playing_bytes};
use reference::events::by_events;
use reference::examples::*;
use reference::foreign;
use reference::note_order::file_was_10;
use reference::playing::{Played, literally, play_by, read_playing};
use reference::random::{
    self, Generator, PlayedCase, TINY, played_case, rested_played_case, shifted_played_case,
    small_rested,
};
use reference::reading::{MOST_STROKES, Phrase, Refusal, read};
use rested_kinds::RestedKinds;
use rested_runs::RestedRuns;
use settings::{Wanted, in_hexadecimal, named, setting};
use shifted_kinds::ShiftedKinds;

/// So many cases have to meet every kind often; fewer are for a look at one difference.
const ENOUGH: u64 = 5_000;
/// Long runs that are run literally too, by version, from 1 on.
const LONG_AND_LITERAL: [u64; 3] = [12, 3, 6];
/// Small phrases with more playings than this take too long.
const MOST_PLAYINGS: u64 = 3_000;

/// The literal run; the one by events stands in for it where it is slow.
fn run(phrase: &Phrase, scenario: &Scenario) -> Played {
    if is_long(phrase, scenario) {
        by_events(phrase, scenario)
    } else {
        literally(phrase, scenario)
    }
}

/// What phrase_play has to return: 0, or the refusal.
fn host_number(expected: &Result<Played, Refusal>) -> u64 {
    (expected.as_ref()).map_or_else(|refusal| refusal.host_number(), |_| 0)
}

/// phrase_play: its answer, every word of both arrays, and the words beyond them. Gives what it has played.
fn compare_play(
    case: &PlayedCase,
    expected: &Result<Played, Refusal>,
    random: &mut Generator,
) -> Result<Played, String> {
    let mut lend = || Lent::new(MOST_STROKES, || random.next_number() as u32);
    let (mut starts, mut ends) = (lend(), lend());
    let answer = foreign::phrase_play(
        &case.file,
        &case.playing,
        array(&mut starts),
        array(&mut ends),
    );
    let due = match expected {
        Ok(played) => played,
        Err(_) => &Played::nothing(),
    };
    same_number(host_number(expected), answer)?;
    let starts = compare_words("start", &due.starts, &starts)?;
    let ends = compare_words("end", &due.ends, &ends)?;
    Ok(Played { starts, ends })
}

fn array(lent: &mut Lent<u32>) -> &mut [u32; MOST_STROKES] {
    lent.slice().try_into().expect("so many words are lent")
}

fn compare_words(
    name: &str,
    expected: &[u64; MOST_STROKES],
    lent: &Lent<u32>,
) -> Result<[u64; MOST_STROKES], String> {
    for (number, (&due, &found)) in expected.iter().zip(&lent.after).enumerate() {
        same(
            due == u64::from(found),
            format!("{name} of stroke {number}: expected {due}, found {found}"),
        )?;
    }
    same(
        lent.untouched_from(MOST_STROKES),
        format!("a word after the {name}s was touched"),
    )?;
    Ok(std::array::from_fn(|number| lent.after[number].into()))
}

/// What the check promises of every run of an accepted phrase.
fn keeps_promises(phrase: &Phrase, check: &Check, found: &Played) -> Result<(), String> {
    for (number, stroke) in phrase.strokes.iter().enumerate() {
        let (end, ends) = (found.ends[number], check.ends[number]);
        same(
            ends.contains(end),
            format!("stroke {number} ends at {end}, reported {ends}"),
        )?;
        same(
            end <= stroke.due,
            format!("stroke {number} ends at {end}, due {}", stroke.due),
        )?;
        if let Some(nearest) = stroke.nearest {
            let (start, ended) = (found.starts[number], found.ends[nearest]);
            let rest = phrase.bells[stroke.bell].rest;
            same(
                start >= ended + rest,
                format!("stroke {number} starts at {start}, {nearest} ended at {ended}"),
            )?;
        }
    }
    Ok(())
}

/// Gives the answer that the library has to have.
fn compare_case(
    case: &PlayedCase,
    random: &mut Generator,
    kinds: &mut Kinds,
) -> Result<u64, String> {
    let expected = play_by(&case.file, &case.playing, run);
    let found = named("phrase_play", || compare_play(case, &expected, random))?;
    let answer = host_number(&expected);
    kinds.answers.add(answer);
    kinds.was_10.add(file_was_10(&case.file));
    let Ok(phrase) = read(&case.file) else {
        return Ok(answer);
    };
    match &expected {
        Err(Refusal { number: 17, .. }) => kinds.add_malformed(&phrase, &case.playing),
        Err(Refusal { place, .. }) => kinds.add_outside(&phrase, &case.playing, *place),
        Ok(played) => {
            let scenario = read_playing(&phrase, &case.playing).expect("it was run");
            let check = check_phrase(&phrase, HOST_WORDS);
            if check.is_accepted() {
                keeps_promises(&phrase, &check, &found)?;
            }
            kinds.add_run(&phrase, &scenario, played, check.is_accepted());
            let most_literal = LONG_AND_LITERAL[phrase.version as usize - 1];
            if is_long(&phrase, &scenario) && kinds.literal_too < most_literal {
                kinds.literal_too += 1;
                let literal = literally(&phrase, &scenario);
                same(found == literal, "not the literal run")?;
            }
        }
    }
    Ok(answer)
}

fn compare_random() -> Result<(), String> {
    let wanted = Wanted::new()?;
    let mut kinds = Kinds::new();
    for number in wanted.numbers(1) {
        let mut random = Generator::of_case(!wanted.seed, number);
        let case = played_case(wanted.seed, number);
        compare_case(&case, &mut random, &mut kinds).map_err(|difference| {
            format!(
                "{}: {difference}\n{}",
                wanted.name(number),
                described(&case)
            )
        })?;
    }
    kinds.print();
    if wanted.count < ENOUGH {
        return Ok(());
    }
    kinds.demand_all(wanted.count)
}

fn compare_random_of_version_2() -> Result<(), String> {
    let wanted = Wanted::new()?;
    let numbers = wanted.numbers(random::CASES_PER_SHIFTED);
    let (mut kinds, mut shifted) = (Kinds::new(), ShiftedKinds::new());
    for number in numbers.clone() {
        let mut random = Generator::of_case(!wanted.seed, number);
        let case = shifted_played_case(wanted.seed, number);
        let answer = compare_case(&case, &mut random, &mut kinds).map_err(|difference| {
            format!(
                "version 2, {}: {difference}\n{}",
                wanted.name(number),
                described(&case)
            )
        })?;
        shifted.add(&case.file, answer);
    }
    println!("version 2:");
    kinds.print();
    shifted.print();
    let cases = numbers.end - numbers.start;
    if cases < ENOUGH {
        return Ok(());
    }
    kinds.demand_all(cases)?;
    shifted.demand_all(cases)
}

fn compare_random_of_version_3() -> Result<(), String> {
    let wanted = Wanted::new()?;
    let numbers = wanted.numbers(random::CASES_PER_RESTED);
    let (mut kinds, mut rested) = (Kinds::new(), RestedKinds::new());
    let mut runs = RestedRuns::new();
    for number in numbers.clone() {
        let mut random = Generator::of_case(!wanted.seed, number);
        let case = rested_played_case(wanted.seed, number);
        let answer = compare_case(&case, &mut random, &mut kinds).map_err(|difference| {
            format!(
                "version 3, {}: {difference}\n{}",
                wanted.name(number),
                described(&case)
            )
        })?;
        rested.add(&case.file, answer);
        if let (0, Ok(phrase)) = (answer, read(&case.file)) {
            let scenario = read_playing(&phrase, &case.playing).expect("it was run");
            runs.add(&phrase, &scenario, &by_events(&phrase, &scenario));
        }
    }
    println!("version 3:");
    kinds.print();
    rested.print();
    runs.print();
    let cases = numbers.end - numbers.start;
    if cases < ENOUGH {
        return Ok(());
    }
    kinds.demand_all(cases)?;
    rested.demand_all(cases)?;
    runs.demand(cases)
}

fn described(case: &PlayedCase) -> String {
    format!(
        "file {}\nplaying {}",
        in_hexadecimal(&case.file),
        in_hexadecimal(&case.playing)
    )
}

/// Every playing of an accepted phrase: as the literal run has it, and as the check promises. Gives how many there are.
fn compare_all_playings(file: &[u8], random: &mut Generator) -> Result<u64, String> {
    let phrase = read(file).map_err(|refusal| format!("{refusal:?}"))?;
    let check = check_phrase(&phrase, HOST_WORDS);
    same(check.is_accepted(), "a phrase that is not accepted")?;
    let mut count = 0;
    for scenario in all_scenarios(&phrase) {
        count += 1;
        let case = PlayedCase {
            file: file.to_vec(),
            playing: playing_bytes(&scenario),
        };
        compare_play(&case, &Ok(literally(&phrase, &scenario)), random)
            .and_then(|found| keeps_promises(&phrase, &check, &found))
            .map_err(|difference| format!("{difference}\n{}", described(&case)))?;
    }
    Ok(count)
}

fn compare_small_phrases() -> Result<(), String> {
    let examples = [P.to_vec(), m1(), m5(), m6(), m7(), m8()];
    let draw = |random: &mut Generator| random::draft(random, &TINY);
    compare_examples_and_small_phrases("the marked phrases", &examples, draw)
}

fn compare_small_phrases_with_rests() -> Result<(), String> {
    let mut examples = vec![P_RESTED.to_vec()];
    examples.extend(rested_examples().iter().map(|e| e.draft.bytes()));
    compare_examples_and_small_phrases("the examples with rests", &examples, small_rested)
}

fn compare_examples_and_small_phrases(
    name: &str,
    examples: &[Vec<u8>],
    draw: impl Fn(&mut Generator) -> Draft,
) -> Result<(), String> {
    let wanted = setting("PLAYED_PHRASES", 600)?;
    let mut random = Generator::new(random::SEED);
    let mut playings = 0;
    for file in examples {
        playings += compare_all_playings(file, &mut random)?;
    }
    let mut phrases = 0;
    while phrases < wanted {
        let draft = draw(&mut random);
        let file = random::tuned(&mut random, draft).bytes();
        let phrase = read(&file).map_err(|refusal| format!("{refusal:?}"))?;
        let is_small = scenario_count(&phrase).is_some_and(|count| count <= MOST_PLAYINGS);
        if is_small && check_phrase(&phrase, HOST_WORDS).is_accepted() {
            phrases += 1;
            playings += compare_all_playings(&file, &mut random)?;
        }
    }
    println!("all playings of {name} and {phrases} small ones agree: {playings}");
    same(playings >= 100 * wanted, "small phrases have few playings")
}

/// Every playing of the examples of version 2 that are accepted, and one of the others.
fn compare_examples_of_version_2() -> Result<(), String> {
    let mut random = Generator::new(random::SEED);
    let mut playings = 0;
    for file in [
        P_SHIFTED.to_vec(),
        p_lower(),
        outermost_bells(143, -24),
        outermost_bells(0, 12),
    ] {
        playings += compare_all_playings(&file, &mut random)?;
    }
    let refused = refused_of_version_2();
    compare_refused(&refused, &mut random)?;
    println!(
        "all playings of the examples of version 2 agree: {playings}, and {} that are refused",
        refused.len()
    );
    Ok(())
}

fn compare_examples_of_version_3() -> Result<(), String> {
    let refused = refused_of_version_3();
    compare_refused(&refused, &mut Generator::new(random::SEED))?;
    println!("files of version 3 that are refused: {}", refused.len());
    Ok(())
}

/// Files with the number and the place of their refusals.
fn compare_refused(refused: &[(Vec<u8>, u64, u64)], random: &mut Generator) -> Result<(), String> {
    for &(ref file, number, place) in refused {
        let case = PlayedCase {
            file: file.clone(),
            playing: vec![1, 0, 0, 0, 0],
        };
        compare_play(&case, &Err(Refusal { number, place }), random)
            .map_err(|difference| format!("{difference}\n{}", described(&case)))?;
    }
    Ok(())
}

fn main() -> ExitCode {
    match compare_small_phrases()
        .and_then(|()| compare_random())
        .and_then(|()| compare_examples_of_version_2())
        .and_then(|()| compare_random_of_version_2())
        .and_then(|()| compare_small_phrases_with_rests())
        .and_then(|()| compare_examples_of_version_3())
        .and_then(|()| compare_random_of_version_3())
    {
        Ok(()) => ExitCode::SUCCESS,
        Err(difference) => {
            println!("compare_playing: FAILED: {difference}");
            ExitCode::FAILURE
        }
    }
}
