//! The product's check against this checker, on random phrases: through the program `checker_examples`, which the gate has proved and built.

use reference::check::check;
use reference::printed::result;
use reference::random::{
    CASES, CASES_PER_RESTED, CASES_PER_SHIFTED, Case, case, rested_case, shifted_case,
};
use reference::reading;
use reference::walk::words_per_state;
use std::env;
use std::io::Write;
use std::process::{Command, Stdio};

/// What the program reads at once, and the words of its table.
const INPUT_BYTES: usize = 65_536;
const TABLE_WORDS: usize = 16_384;
const SEED: u64 = 7;

fn count() -> u64 {
    let count =
        env::var("PROGRAM_CASES").map_or(CASES, |n| n.parse().expect("PROGRAM_CASES is a number"));
    assert!(count > 0, "PROGRAM_CASES is 0: nothing to compare");
    count
}

fn program() -> String {
    env::var("CHECKER_EXAMPLES").unwrap_or_else(|_| {
        format!(
            "{}/../target/bin/checker_examples",
            env!("CARGO_MANIFEST_DIR")
        )
    })
}

/// How many words the check may use: two levels of as many states as have room; none on a refusal of reading.
fn used_words(case: &Case) -> usize {
    reading::read(&case.file).map_or(0, |phrase| {
        let pair = 2 * words_per_state(&phrase) as usize;
        case.table_words / pair * pair
    })
}

fn frame(case: &Case) -> Vec<u8> {
    let two_bytes = |n: usize| u16::try_from(n).expect("fits two bytes").to_be_bytes();
    let mut bytes = Vec::new();
    bytes.extend(two_bytes(case.table_words));
    bytes.extend(two_bytes(used_words(case)));
    bytes.extend(two_bytes(case.file.len()));
    bytes.extend(&case.file);
    bytes
}

/// What the program should print for a case.
fn expected(case: &Case) -> String {
    let checked = check(&case.file, case.table_words);
    result(&checked) + "rest unchanged\n"
}

/// One run of the program.
fn run(input: &[u8]) -> String {
    let mut child = Command::new(program())
        .stdin(Stdio::piped())
        .stdout(Stdio::piped())
        .spawn()
        .unwrap_or_else(|e| panic!("{}: {e}; `tools/build program` builds it", program()));
    let mut stdin = child.stdin.take().expect("piped");
    let bytes = input.to_vec();
    let writer = std::thread::spawn(move || stdin.write_all(&bytes));
    let output = child.wait_with_output().expect("the program ends");
    writer
        .join()
        .expect("no panic")
        .expect("the program reads it all");
    String::from_utf8(output.stdout).expect("text")
}

/// The cases of one run, with their numbers.
struct Batch {
    input: Vec<u8>,
    cases: Vec<(u64, Case)>,
}

impl Batch {
    fn new() -> Batch {
        Batch {
            input: Vec::new(),
            cases: Vec::new(),
        }
    }

    fn compare(&self) {
        let output = run(&self.input);
        let mut rest = output.as_str();
        for (number, case) in &self.cases {
            let expected = expected(case);
            assert!(
                rest.starts_with(&expected),
                "case {number} of seed {SEED}, {} words, file {:02X?}:\nexpected\n{expected}but the program wrote\n{}",
                case.table_words,
                case.file,
                rest.lines().take(6).collect::<Vec<_>>().join("\n"),
            );
            rest = &rest[expected.len()..];
        }
        assert_eq!(rest, "", "the program wrote more");
    }
}

/// So many cases of a stream.
fn compare(count: u64, case: fn(u64, u64) -> Case) {
    let mut batch = Batch::new();
    for number in 0..count {
        let mut case = case(SEED, number);
        case.table_words = case.table_words.min(TABLE_WORDS);
        let frame = frame(&case);
        if INPUT_BYTES < batch.input.len() + frame.len() {
            batch.compare();
            batch = Batch::new();
        }
        batch.input.extend(frame);
        batch.cases.push((number, case));
    }
    batch.compare();
}

#[test]
fn the_program_agrees_on_random_phrases() {
    compare(count(), case);
}

#[test]
fn the_program_agrees_on_random_phrases_of_version_2() {
    compare(count().div_ceil(CASES_PER_SHIFTED), shifted_case);
}

#[test]
fn the_program_agrees_on_random_phrases_of_version_3() {
    compare(count().div_ceil(CASES_PER_RESTED), rested_case);
}
