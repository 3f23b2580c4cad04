//! The library on phrases with nothing uncertain in their strokes (request #107): what its check and its report say, in tables
//! with room for one state, for two, and as the host has it, against its own run of the one playing and against this checker.
//! Also 13 at level 0, and no other, with one word less than a state takes.
//!
//! COMPARE_COUNT phrases (5,000) of COMPARE_SEED (1), from number COMPARE_FIRST (0) on, for every four one of version 2, and for
//! every two one of version 3; and those worked by hand.

#[path = "common/certain_examples.rs"]
mod certain_examples;
#[path = "common/certain_kinds.rs"]
mod certain_kinds;
#[path = "common/counts.rs"]
mod counts;
#[path = "common/differences.rs"]
mod differences;
#[path = "common/lent.rs"]
mod lent;
#[path = "common/one_run.rs"]
mod one_run;
#[path = "common/rested_runs.rs"]
mod rested_runs;
#[path = "common/settings.rs"]
mod settings;

use std::array;
use std::process::ExitCode;

use certain_examples::{CertainExample, certain_examples};
use certain_kinds::CertainKinds;
use differences::{same, same_number};
use lent::Lent;
use one_run::{check_by_run, late_strokes, one_scenario};
use reference::check::{Answer, Check, HOST_WORDS};
use reference::dispatch::Scenario;
use reference::draft::playing_bytes;
use reference::events::by_events;
use reference::foreign;
use reference::playing::Played;
use reference::printed::result;
use reference::random::{self, Generator, certain_case, rested_certain_case, shifted_certain_case};
use reference::reading::{MOST_STROKES, Phrase, read};
use reference::report::check_and_text;
use reference::walk::{capacity, words_per_state};
use rested_runs::RestedRuns;
use settings::{Wanted, in_hexadecimal, named, setting};

/// So many cases have to meet every kind often; fewer are for a look at one difference.
const ENOUGH: u64 = 1_000;

/// What was compared.
struct Compared {
    kinds: CertainKinds,
    rested: RestedRuns,
    /// Ends printed for strokes of accepted phrases, and lines that tell of a late stroke; one for each table.
    printed: u64,
    told: u64,
    /// Bells' lines recounted.
    bells: u64,
}

impl Compared {
    fn new() -> Compared {
        Compared {
            kinds: CertainKinds::new(),
            rested: RestedRuns::new(),
            printed: 0,
            told: 0,
            bells: 0,
        }
    }

    fn print(&self, what: &str) {
        self.kinds.print(what);
        println!(
            "ends printed as they are played: {}, late strokes told of: {}, lines of bells: {}",
            self.printed, self.told, self.bells
        );
    }
}

/// A phrase, and what the library has played of it.
struct Trial<'a> {
    file: &'a [u8],
    phrase: &'a Phrase,
    played: &'a Played,
    random: &'a mut Generator,
}

/// phrase_play with the calls and holds of the phrase itself.
fn compare_play(
    file: &[u8],
    phrase: &Phrase,
    scenario: &Scenario,
    random: &mut Generator,
) -> Result<Played, String> {
    let mut lend = || Lent::new(MOST_STROKES, || random.next_number() as u32);
    let (mut starts, mut ends) = (lend(), lend());
    let playing = playing_bytes(scenario);
    let answer = foreign::phrase_play(file, &playing, array(&mut starts), array(&mut ends));
    same_number(0, answer)?;
    let is_clear = starts.untouched_from(MOST_STROKES) && ends.untouched_from(MOST_STROKES);
    same(is_clear, "a word after the starts or ends was touched")?;
    let found = Played {
        starts: array::from_fn(|number| starts.after[number].into()),
        ends: array::from_fn(|number| ends.after[number].into()),
    };
    let due = by_events(phrase, scenario);
    same(found == due, format!("expected {due:?}\nfound {found:?}"))?;
    Ok(found)
}

fn array(lent: &mut Lent<u32>) -> &mut [u32; MOST_STROKES] {
    lent.slice().try_into().expect("so many words are lent")
}

impl Trial<'_> {
    /// Check and report in a table with room for a state: the run's verdict.
    fn compare(&mut self, table_words: usize, compared: &mut Compared) -> Result<(), String> {
        let expected = check_by_run(self.phrase, self.played);
        let text = self.compare_calls(table_words, &expected)?;
        named("phrase_report_with", || {
            self.compare_printed(&expected, &text, compared)
        })
    }

    /// In a table without.
    fn compare_full(&mut self, table_words: usize) -> Result<(), String> {
        let (number, place) = (13, 0);
        let expected = Check::bare(Answer::Refused { number, place });
        let text = self.compare_calls(table_words, &expected)?;
        same(text == "refused 13 level 0\n", text)
    }

    /// Both calls, and this checker, have to give what is expected; gives the library's text.
    fn compare_calls(&mut self, table_words: usize, expected: &Check) -> Result<String, String> {
        let (check, text) = check_and_text(self.file, table_words);
        same(
            check == *expected,
            format!(
                "expected\n{}this checker has\n{}",
                result(expected),
                result(&check)
            ),
        )?;
        named("phrase_check_with", || {
            let mut table = self.lend_table(table_words);
            let number = foreign::phrase_check_with(self.file, table.slice());
            same_number(expected.host_number(), number)?;
            self.compare_table(&table)
        })?;
        named("phrase_report_with", || {
            let mut table = self.lend_table(table_words);
            let length = text.len() + self.random.below(100) as usize;
            let mut lent = Lent::new(length, || self.random.next_number() as u8);
            let length = foreign::phrase_report_with(self.file, table.slice(), lent.slice());
            let due = text.len();
            same(length == due, format!("length {length} instead of {due}"))?;
            let found = String::from_utf8_lossy(&lent.after[..length]).into_owned();
            same(text == found, format!("expected\n{text}found\n{found}"))?;
            same(
                lent.untouched_from(length),
                format!("a byte past the text's {length} was touched"),
            )?;
            self.compare_table(&table)?;
            Ok(found)
        })
    }

    fn lend_table(&mut self, table_words: usize) -> Lent<u32> {
        Lent::new(table_words, || self.random.next_number() as u32)
    }

    /// The first 2 x S x W words may hold anything.
    fn compare_table(&self, table: &Lent<u32>) -> Result<(), String> {
        let states = capacity(self.phrase, table.length);
        let used = 2 * states * words_per_state(self.phrase);
        same(
            table.untouched_from(used as usize),
            format!("a table word from {used} on was touched"),
        )
    }

    /// The library's text by itself against what the library has played.
    fn compare_printed(
        &self,
        expected: &Check,
        text: &str,
        compared: &mut Compared,
    ) -> Result<(), String> {
        let lines: Vec<&str> = text.lines().collect();
        let (&last, lines) = lines.split_last().ok_or("no line")?;
        let ends = &self.played.ends;
        if !expected.is_accepted() {
            let told = late_strokes(self.phrase, self.played)[0];
            compared.told += 1;
            same(lines.is_empty(), "lines before the refusal")?;
            same(number_after(last, "refused") == Some(14), "not 14")?;
            same(
                number_after(last, "stroke") == Some(told as u64),
                format!("{told} is the first to start of the late ones: {last}"),
            )?;
            return same_ends(last, ends[told]);
        }
        let count = self.phrase.strokes.len();
        let (strokes, bells) =
            (lines.split_at_checked(count)).ok_or("not a line for each stroke")?;
        for (number, line) in strokes.iter().enumerate() {
            compared.printed += 1;
            let due = number_after(line, "due");
            same(number_after(line, "stroke") == Some(number as u64), *line)?;
            same_ends(line, ends[number])?;
            same(due >= Some(ends[number]), format!("not by its due: {line}"))?;
        }
        compared.bells += bells.len() as u64;
        self.compare_bells(strokes, bells, last)?;
        same(
            number_after(last, "states") == Some(count as u64 + 1),
            format!("not a state for each level: {last}"),
        )
    }

    /// The bells' lines and the total, recounted from the bells in the strokes' lines.
    fn compare_bells(&self, strokes: &[&str], bells: &[&str], last: &str) -> Result<(), String> {
        let struck = strokes.iter().map(|line| number_after(line, "bell"));
        let struck: Vec<Option<u64>> = struck.collect();
        let (mut due, mut total) = (Vec::new(), 0);
        for (number, bell) in (0..).zip(&self.phrase.bells) {
            let count = struck.iter().filter(|&&b| b == Some(number)).count();
            let hold = count as u64 * bell.hold.high;
            total += hold;
            if count > 0 {
                due.push(format!("bell {number} strokes {count} hold {hold}"));
            }
        }
        same(bells == due, format!("expected {due:?}, found {bells:?}"))?;
        same(
            number_after(last, "hold") == Some(total),
            format!("{total} in all: {last}"),
        )
    }
}

/// The word after a word of a line.
fn word_after<'a>(line: &'a str, word: &str) -> Option<&'a str> {
    let mut words = line.split(' ');
    words.find(|&found| found == word)?;
    words.next()
}

fn number_after(line: &str, word: &str) -> Option<u64> {
    word_after(line, word)?.parse().ok()
}

/// Both ends that a line prints are the end that was played.
fn same_ends(line: &str, end: u64) -> Result<(), String> {
    let both = word_after(line, "ends").and_then(|ends| ends.split_once(".."));
    let is_end = |printed: &str| printed == end.to_string();
    same(
        both.is_some_and(|(low, high)| is_end(low) && is_end(high)),
        format!("played until {end}: {line}"),
    )
}

/// One phrase, in all tables. Gives what the library has played of it.
fn compare_case(
    file: &[u8],
    random: &mut Generator,
    compared: &mut Compared,
) -> Result<(Phrase, Played), String> {
    let phrase = read(file).map_err(|refusal| format!("{refusal:?}"))?;
    let scenario = one_scenario(&phrase).ok_or("an uncertain phrase")?;
    let played = named("phrase_play", || {
        compare_play(file, &phrase, &scenario, random)
    })?;
    let mut trial = Trial {
        file,
        phrase: &phrase,
        played: &played,
        random,
    };
    let pair = 2 * words_per_state(&phrase) as usize;
    for table_words in [pair, 2 * pair, HOST_WORDS] {
        (trial.compare(table_words, compared))
            .map_err(|difference| format!("{table_words} words: {difference}"))?;
    }
    (trial.compare_full(pair - 1)).map_err(|difference| format!("no state: {difference}"))?;
    compared.kinds.add(&phrase, &scenario, &played);
    compared.rested.add(&phrase, &scenario, &played);
    Ok((phrase, played))
}

fn compare_random(
    version: u64,
    cases_per: u64,
    case: fn(u64, u64) -> Vec<u8>,
) -> Result<(), String> {
    let mut wanted = Wanted::new()?;
    wanted.count = setting("COMPARE_COUNT", random::CERTAIN_CASES)?;
    let numbers = wanted.numbers(cases_per);
    let mut compared = Compared::new();
    for number in numbers.clone() {
        let mut random = Generator::of_case(!wanted.seed, number);
        let file = case(wanted.seed, number);
        let (phrase, _) =
            compare_case(&file, &mut random, &mut compared).map_err(|difference| {
                format!(
                    "version {version}, {}: {difference}\nfile {}",
                    wanted.name(number),
                    in_hexadecimal(&file)
                )
            })?;
        same(phrase.version == version, "of another version")?;
    }
    compared.print(&format!(
        "random phrases of version {version} with nothing uncertain that agree"
    ));
    if version == 3 {
        compared.rested.print();
    }
    let cases = numbers.end - numbers.start;
    if cases < ENOUGH {
        return Ok(());
    }
    compared.kinds.demand_all(cases)?;
    same(compared.printed >= 10 * cases, "few ends are printed")?;
    same(compared.told >= cases, "few late strokes are told of")?;
    same(compared.bells >= 5 * cases, "few lines of bells")?;
    if version == 3 {
        compared.rested.demand(cases)?;
    }
    Ok(())
}

fn compare_example(example: &CertainExample, compared: &mut Compared) -> Result<(), String> {
    for draft in example.drafts() {
        let mut random = Generator::new(random::SEED);
        let (phrase, played) = compare_case(&draft.bytes(), &mut random, compared)?;
        let count = phrase.strokes.len();
        same(played.ends[..count] == example.ends, "other ends")?;
        let late = late_strokes(&phrase, &played).first().copied();
        same(late == example.late, "another stroke is late")?;
    }
    Ok(())
}

fn compare_examples() -> Result<(), String> {
    let mut compared = Compared::new();
    for example in certain_examples() {
        compare_example(&example, &mut compared)
            .map_err(|difference| format!("{}: {difference}", example.name))?;
    }
    let (accepted, late) = (compared.kinds.accepted, compared.kinds.late);
    println!("phrases worked by hand that agree: {accepted} accepted, {late} late");
    Ok(())
}

fn main() -> ExitCode {
    match compare_examples()
        .and_then(|()| compare_random(1, 1, certain_case))
        .and_then(|()| compare_random(2, random::CASES_PER_SHIFTED, shifted_certain_case))
        .and_then(|()| compare_random(3, random::CASES_PER_RESTED, rested_certain_case))
    {
        Ok(()) => ExitCode::SUCCESS,
        Err(difference) => {
            println!("compare_certain: FAILED: {difference}");
            ExitCode::FAILURE
        }
    }
}
