//! The product's library against this checker: numbers, places, texts and all that stays untouched.
//!
//! COMPARE_COUNT phrases (20,000) of COMPARE_SEED (1), from number COMPARE_FIRST (0) on, for every two
//! thousand one of the widest, for every four one with calls at 0, for every four one of version 2, and for
//! every two one of version 3. Of each version, the first eighth of them once more where they are accepted: in
//! all buffers around the lengths of their texts, with and without the bells' lines.

#[path = "common/bell_kinds.rs"]
mod bell_kinds;
#[path = "common/counts.rs"]
mod counts;
#[path = "common/lent.rs"]
mod lent;
#[path = "common/rested_kinds.rs"]
mod rested_kinds;
#[path = "common/rested_verdicts.rs"]
mod rested_verdicts;
#[path = "common/settings.rs"]
mod settings;
#[path = "common/shifted_kinds.rs"]
mod shifted_kinds;
#[path = "common/tally.rs"]
mod tally;
#[path = "common/tried_notes.rs"]
mod tried_notes;
#[path = "common/was_10.rs"]
mod was_10;

use std::process::ExitCode;

use bell_kinds::BellKinds;
use lent::Lent;
use reference::check::{Check, HOST_WORDS};
use reference::draft::{Draft, DraftBell, DraftNote};
use reference::examples::*;
use reference::foreign;
use reference::note_order::{ENOUGH_WORDS, OF_FILES, file_was_10, tried_notes};
use reference::paper::steps;
use reference::random::{
    self, Case, Generator, at_zero_case, case, rested_case, shifted_case, widest_case,
};
use reference::reading::read;
use reference::report::{check_and_text, length_without_bells};
use reference::struck::{longest_text, struck_examples};
use reference::walk::{capacity, walk, walk_observed, words_per_state};
use rested_kinds::RestedKinds;
use rested_verdicts::RestedVerdicts;
use settings::{Wanted, in_hexadecimal, named};
use shifted_kinds::ShiftedKinds;
use tally::Tally;
use tried_notes::demand_exactly;
use was_10::WasTen;

/// So many cases have to meet latest starts below zero, all kinds of versions 2 and 3 and what was 10 often; fewer are for
/// a look at one difference.
const ENOUGH: u64 = 5_000;
/// For every so many cases, one is also compared in all buffers around its text's lengths.
const CASES_PER_BORDERS: u64 = 8;

/// What was compared, by the answers in lent tables.
#[derive(Default)]
struct Kinds {
    answers: Tally,
    /// Of phrases with a candidate whose latest start is below zero.
    below_zero: Tally,
    was_10: WasTen,
    reports: Reports,
}

#[derive(Default)]
struct Reports {
    written: u64,
    refused: u64,
}

impl Reports {
    fn print(&self) {
        println!(
            "reports written {}, refused with 15 {}",
            self.written, self.refused
        );
    }
}

impl Kinds {
    fn print(&self) {
        (self.answers)
            .print("random phrases that agree, by their answer in tables of many lengths");
        (self.below_zero).print("those of them in which a latest start is below zero");
        self.was_10.print("those of them");
        self.reports.print();
    }

    /// Names an answer that phrases with a latest start below zero too rarely had in so many cases.
    fn demand_below_zero(&self, cases: u64) -> Result<(), String> {
        let is_rare = |answer: &usize| self.below_zero.counts[*answer] * 40 < cases;
        match [0, 13, 14].into_iter().find(is_rare) {
            Some(answer) => Err(format!("a latest start below zero is rare with {answer}")),
            None => Ok(()),
        }
    }
}

struct Trial<'a> {
    file: &'a [u8],
    table_words: usize,
    random: Generator,
}

impl Trial<'_> {
    /// Makes all four calls; says which one differs, and how. Gives the answer in the lent table.
    fn run(&mut self, reports: &mut Reports) -> Result<u64, String> {
        let (check, text) = check_and_text(self.file, HOST_WORDS);
        named("phrase_check", || {
            compare_number(&check, foreign::phrase_check(self.file))
        })?;
        let length = self.text_length(&text);
        self.compare_report(&text, length)?;

        let (check, text) = check_and_text(self.file, self.table_words);
        named("phrase_check_with", || {
            let mut table = self.lend_table();
            let number = foreign::phrase_check_with(self.file, table.slice());
            compare_number(&check, number)?;
            self.compare_table(&table)
        })?;
        let length = self.text_length(&text);
        let written = self.compare_report_with(&text, length)?;
        reports.written += u64::from(written);
        reports.refused += u64::from(!written);
        Ok(check.host_number())
    }

    /// In a buffer of so many bytes.
    fn compare_report(&mut self, text: &str, length: usize) -> Result<(), String> {
        named("phrase_report", || {
            let mut lent = self.lend_text(length);
            let length = foreign::phrase_report(self.file, lent.slice());
            compare_text(text, &lent, length)
        })
    }

    /// The same in the lent table. Gives whether a text was written.
    fn compare_report_with(&mut self, text: &str, length: usize) -> Result<bool, String> {
        named("phrase_report_with", || {
            let mut table = self.lend_table();
            let mut lent = self.lend_text(length);
            let length = foreign::phrase_report_with(self.file, table.slice(), lent.slice());
            compare_text(text, &lent, length)?;
            self.compare_table(&table)?;
            Ok(length != 0)
        })
    }

    fn lend_table(&mut self) -> Lent<u32> {
        let random = &mut self.random;
        Lent::new(self.table_words, || random.next_number() as u32)
    }

    /// For a buffer: around the text's exact length, or as long as it would be without the bells' lines.
    fn text_length(&mut self, text: &str) -> usize {
        let exact = text.len();
        match self.random.below(9) {
            0 => 0,
            1 => self.random.below(exact as u64) as usize,
            2 => exact - 1,
            3 | 4 => exact,
            5 => exact + 1,
            6 => exact + self.random.below(200) as usize,
            7 => length_without_bells(text),
            _ => 32_768,
        }
    }

    fn lend_text(&mut self, length: usize) -> Lent<u8> {
        let random = &mut self.random;
        Lent::new(length, || random.next_number() as u8)
    }

    /// The first 2 x S x W words may hold anything; after a refusal of reading, none may change.
    fn compare_table(&self, table: &Lent<u32>) -> Result<(), String> {
        let used = read(self.file).map_or(0, |phrase| {
            2 * capacity(&phrase, self.table_words) * words_per_state(&phrase)
        });
        if table.untouched_from(used as usize) {
            Ok(())
        } else {
            Err(format!("a table word from {used} on was touched"))
        }
    }
}

/// Whether the walk in a table of so many words comes to such a candidate.
fn has_latest_start_below_zero(file: &[u8], table_words: usize) -> bool {
    let mut found = false;
    if let Ok(phrase) = read(file) {
        walk_observed(&phrase, table_words, |choice, _| {
            found |= steps(choice).lst < 0
        });
    }
    found
}

fn compare_number(check: &Check, found: u64) -> Result<(), String> {
    let expected = check.host_number();
    if found == expected {
        return Ok(());
    }
    Err(format!(
        "expected {} at {}, found {} at {}",
        expected >> 32,
        expected as u32,
        found >> 32,
        found as u32
    ))
}

/// The text, or none and 0 for 15; every byte past it untouched.
fn compare_text(text: &str, lent: &Lent<u8>, length: usize) -> Result<(), String> {
    let expected = if text.len() <= lent.length { text } else { "" };
    if length != expected.len() {
        return Err(format!(
            "text of {} bytes in {}: expected length {}, found {length}",
            text.len(),
            lent.length,
            expected.len()
        ));
    }
    if lent.after[..length] != *expected.as_bytes() {
        let found = String::from_utf8_lossy(&lent.after[..length]);
        return Err(format!("expected\n{expected}found\n{found}"));
    }
    if !lent.untouched_from(length) {
        return Err(format!("a byte past the text's {length} was touched"));
    }
    Ok(())
}

fn compare_random_phrases() -> Result<(), String> {
    let wanted = Wanted::new()?;
    let mut kinds = Kinds::default();
    let drawn = |case: fn(u64, u64) -> Case, cases_per| {
        let numbers = wanted.numbers(cases_per);
        numbers.map(move |number| (number, case(wanted.seed, number)))
    };
    let cases = drawn(case, 1);
    let widest = drawn(widest_case, random::CASES_PER_WIDEST);
    let at_zero = drawn(at_zero_case, random::CASES_PER_AT_ZERO);
    for (number, case) in cases.chain(widest).chain(at_zero) {
        let answer = compare_drawn(&wanted, number, &case, &mut kinds.reports)?;
        kinds.answers.add(answer);
        kinds.was_10.add(file_was_10(&case.file));
        if has_latest_start_below_zero(&case.file, case.table_words) {
            kinds.below_zero.add(answer);
        }
    }
    kinds.print();
    if wanted.count < ENOUGH {
        return Ok(());
    }
    kinds.demand_below_zero(wanted.count)?;
    kinds.was_10.demand(wanted.count)
}

fn compare_random_phrases_of_version_2() -> Result<(), String> {
    let wanted = Wanted::new()?;
    let numbers = wanted.numbers(random::CASES_PER_SHIFTED);
    let (mut kinds, mut reports) = (ShiftedKinds::new(), Reports::default());
    let mut was_10 = WasTen::default();
    for number in numbers.clone() {
        let case = shifted_case(wanted.seed, number);
        let answer = compare_drawn(&wanted, number, &case, &mut reports)
            .map_err(|difference| format!("version 2, {difference}"))?;
        kinds.add(&case.file, answer);
        was_10.add(file_was_10(&case.file));
    }
    (kinds.answers).print("random phrases of version 2 that agree, by their answer in such tables");
    kinds.print();
    was_10.print("those of them");
    reports.print();
    let cases = numbers.end - numbers.start;
    if cases < ENOUGH {
        return Ok(());
    }
    kinds.demand_all(cases)?;
    was_10.demand(cases)
}

fn compare_random_phrases_of_version_3() -> Result<(), String> {
    let wanted = Wanted::new()?;
    let numbers = wanted.numbers(random::CASES_PER_RESTED);
    let (mut kinds, mut verdicts) = (RestedKinds::new(), RestedVerdicts::new());
    let (mut reports, mut was_10) = (Reports::default(), WasTen::default());
    for number in numbers.clone() {
        let case = rested_case(wanted.seed, number);
        let answer = compare_drawn(&wanted, number, &case, &mut reports)
            .map_err(|difference| format!("version 3, {difference}"))?;
        kinds.add(&case.file, answer);
        verdicts.add(&case.file, case.table_words);
        was_10.add(file_was_10(&case.file));
    }
    (kinds.answers).print("random phrases of version 3 that agree, by their answer in such tables");
    kinds.print();
    verdicts.print();
    was_10.print("those of them");
    reports.print();
    let cases = numbers.end - numbers.start;
    if cases < ENOUGH {
        return Ok(());
    }
    kinds.demand_all(cases)?;
    verdicts.demand_all(cases)?;
    was_10.demand(cases)
}

/// Gives the answer in the lent table.
fn compare_drawn(
    wanted: &Wanted,
    number: u64,
    case: &Case,
    reports: &mut Reports,
) -> Result<u64, String> {
    let mut trial = Trial {
        file: &case.file,
        table_words: case.table_words,
        random: Generator::of_case(!wanted.seed, number),
    };
    trial.run(reports).map_err(|difference| {
        format!(
            "{}: {difference}\ntable {} words, file {}",
            wanted.name(number),
            case.table_words,
            in_hexadecimal(&case.file)
        )
    })
}

fn compare_examples() -> Result<(), String> {
    let files = [
        P.to_vec(),
        p_with(35, 6),
        vec![],
        vec![9],
        p_waiting_for_itself(),
        m1(),
        m5(),
        m6(),
        m7(),
        m8(),
    ];
    compare_files(&files)?;
    println!("examples that agree: {}", files.len());
    for (counts, words) in NEAR_HOST_WORDS {
        for table_words in [words - 1, words] {
            compare_once(&in_any_order(&counts), table_words, 0)?;
        }
    }
    Ok(())
}

fn compare_examples_of_version_2() -> Result<(), String> {
    let mut files = vec![
        P_SHIFTED.to_vec(),
        p_lower(),
        p_shifted_with(36, 6),
        outermost_bells(143, -24),
        outermost_bells(0, 12),
    ];
    files.extend(refused_of_version_2().into_iter().map(|(file, ..)| file));
    compare_files(&files)?;
    println!("examples of version 2 that agree: {}", files.len());
    Ok(())
}

fn compare_examples_of_version_3() -> Result<(), String> {
    let mut files = vec![
        P_RESTED.to_vec(),
        p_rested_with(&[(40, 6)]),
        late_by_a_rest(),
    ];
    files.extend(rested_examples().iter().map(|e| e.draft.bytes()));
    files.extend(refused_of_version_3().into_iter().map(|(file, ..)| file));
    compare_files(&files)?;
    println!("examples of version 3 that agree: {}", files.len());
    Ok(())
}

/// Phrases made for the bells' lines: in buffers of all lengths up to the text's and just above; and the longest texts, in
/// tables that these take all of, and in one word less.
fn compare_struck_bells() -> Result<(), String> {
    let examples = struck_examples();
    let files: Vec<Vec<u8>> = examples.iter().map(|e| e.draft.bytes()).collect();
    compare_files(&files)?;
    for (example, file) in examples.iter().zip(&files) {
        let lengths = 0..example.text.len() + 2;
        compare_in_buffers(file, HOST_WORDS, example.text, lengths)
            .map_err(|difference| format!("{}: {difference}", example.name))?;
    }
    println!("examples of struck bells that agree: {}", files.len());

    for chains in [2, 3] {
        let file = longest_text(chains).bytes();
        let phrase = read(&file).expect("the draft is valid");
        let pair = 2 * words_per_state(&phrase);
        let words = (pair * walk(&phrase, usize::MAX).peak) as usize;
        for table_words in [HOST_WORDS, words - 1, words] {
            let (_, text) = check_and_text(&file, table_words);
            compare_in_buffers(&file, table_words, &text, borders(&text))?;
            println!("a text of {} bytes agrees", text.len());
        }
    }
    Ok(())
}

/// The lengths at which a buffer gets too short for the text, and would get too short for it without its bells' lines.
fn borders(text: &str) -> impl Iterator<Item = usize> {
    let (without, exact) = (length_without_bells(text), text.len());
    [without - 1, without, exact - 1, exact, exact + 1].into_iter()
}

/// The reports of a text in buffers of these lengths: with the lent table, and by the host's call if its own is as long.
fn compare_in_buffers(
    file: &[u8],
    table_words: usize,
    text: &str,
    lengths: impl Iterator<Item = usize>,
) -> Result<(), String> {
    let mut trial = Trial {
        file,
        table_words,
        random: Generator::new(random::SEED),
    };
    let mut compare = |length| {
        if table_words == HOST_WORDS {
            trial.compare_report(text, length)?;
        }
        trial.compare_report_with(text, length)
    };
    for length in lengths {
        compare(length).map_err(|difference| {
            let file = in_hexadecimal(file);
            format!("{difference}\ntable {table_words} words, file {file}")
        })?;
    }
    Ok(())
}

/// Accepted phrases of all versions, in buffers of all border lengths.
fn compare_borders() -> Result<(), String> {
    let wanted = Wanted::new()?;
    let mut kinds = BellKinds::new();
    let drawn = |case: fn(u64, u64) -> Case, cases_per| {
        let numbers = wanted.numbers(cases_per * CASES_PER_BORDERS);
        numbers.map(move |number| (number, case(wanted.seed, number)))
    };
    let version_1 = drawn(case, 1);
    let version_2 = drawn(shifted_case, random::CASES_PER_SHIFTED);
    let version_3 = drawn(rested_case, random::CASES_PER_RESTED);
    for (number, Case { file, .. }) in version_1.chain(version_2).chain(version_3) {
        let (check, text) = check_and_text(&file, HOST_WORDS);
        if !check.is_accepted() {
            continue;
        }
        compare_in_buffers(&file, HOST_WORDS, &text, borders(&text))
            .map_err(|difference| format!("{}: {difference}", wanted.name(number)))?;
        kinds.add(&read(&file).expect("it was accepted"));
    }
    kinds.print();
    if wanted.count < ENOUGH {
        return Ok(());
    }
    kinds.demand(20)
}

/// Every rest that two bytes can hold, on a bell that is struck twice.
fn compare_rests() -> Result<(), String> {
    let mut accepted = 0;
    for rest in 0..=u16::MAX {
        let mut draft = rested_examples().swap_remove(0).draft;
        draft.bells[0].rest = Some(rest);
        draft.notes[1].due = 5_000;
        accepted += u64::from(compare_once(&draft.bytes(), 16, rest.into())? == 0);
    }
    println!("all rests agree, {accepted} of them accepted");
    // Two holds of 2 and the rest are at most 5000.
    if accepted != 4_997 {
        return Err("other rests than there should be are accepted".to_string());
    }
    Ok(())
}

/// Every key of a note with every shift up to those just out of range, on bells that sound for the lowest and the highest key.
fn compare_keys_and_shifts() -> Result<(), String> {
    let mut accepted = 0;
    for shift in -25..=25 {
        for key in 0..=255 {
            let file = outermost_bells(key, shift);
            compare_once(&file, 12, key.into())?;
            accepted += u64::from(read(&file).is_ok());
        }
    }
    println!("all keys with all shifts agree, {accepted} of them with a bell");
    // The upper bell with each of 49 shifts, the lower one with none above 12.
    if accepted != 49 + 37 {
        return Err("other keys than there should be find a bell".to_string());
    }
    Ok(())
}

/// Every note of a phrase with any of rules 10, 11 and 12 broken, each in several ways.
fn compare_tried_notes() -> Result<(), String> {
    let mut answers = Tally::default();
    let files = tried_notes().into_iter().filter_map(|tried| tried.file());
    for (seed, file) in (0..).zip(files) {
        answers.add(compare_once(&file, ENOUGH_WORDS, seed)?);
    }
    let what = "files with tried notes that agree";
    demand_exactly(what, &answers.counts, OF_FILES)
}

fn compare_files(files: &[Vec<u8>]) -> Result<(), String> {
    for file in files {
        for table_words in [0, 7, 8, 31, 32, HOST_WORDS] {
            for seed in 0..20 {
                compare_once(file, table_words, seed)?;
            }
        }
    }
    Ok(())
}

/// Gives the answer in the lent table.
fn compare_once(file: &[u8], table_words: usize, seed: u64) -> Result<u64, String> {
    let mut trial = Trial {
        file,
        table_words,
        random: Generator::new(seed),
    };
    trial.run(&mut Reports::default()).map_err(|difference| {
        let file = in_hexadecimal(file);
        format!("{difference}\ntable {table_words} words, file {file}")
    })
}

/// Levels of thousands of states: strokes that may go in any order, so that every set of them is one.
fn compare_large_levels() -> Result<(), String> {
    const STROKES: u8 = 14;
    const MOST_STATES: usize = 3_432;
    let bells = (0..STROKES).map(|number| DraftBell {
        written: 40 + number,
        transposition: 0,
        ca: 1,
        cb: 3,
        rest: None,
        rank: number % 3,
    });
    let notes = (0..STROKES).map(|number| DraftNote::new(40 + number, 0, 1_000, 5_000, vec![]));
    let bells: Vec<DraftBell> = bells.collect();
    let notes: Vec<DraftNote> = notes.collect();
    for drivers in [1, 3] {
        let file = Draft::new(drivers, bells.clone(), notes.clone()).bytes();
        let phrase = read(&file).expect("the draft is valid");
        let pair = 2 * words_per_state(&phrase) as usize;
        let (enough, _) = check_and_text(&file, MOST_STATES * pair);
        assert!(enough.host_number() == 0, "{MOST_STATES} states suffice");
        for states in [MOST_STATES, MOST_STATES - 1, 2_100, 1_000] {
            compare_once(&file, states * pair, states as u64)?;
        }
    }
    println!("levels of up to {MOST_STATES} states agree");
    Ok(())
}

fn main() -> ExitCode {
    match compare_examples()
        .and_then(|()| compare_large_levels())
        .and_then(|()| compare_random_phrases())
        .and_then(|()| compare_examples_of_version_2())
        .and_then(|()| compare_keys_and_shifts())
        .and_then(|()| compare_tried_notes())
        .and_then(|()| compare_random_phrases_of_version_2())
        .and_then(|()| compare_examples_of_version_3())
        .and_then(|()| compare_rests())
        .and_then(|()| compare_random_phrases_of_version_3())
        .and_then(|()| compare_struck_bells())
        .and_then(|()| compare_borders())
    {
        Ok(()) => ExitCode::SUCCESS,
        Err(difference) => {
            println!("compare: FAILED: {difference}");
            ExitCode::FAILURE
        }
    }
}
