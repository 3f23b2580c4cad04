//! The library's reading and writing of phrases against this writer and reader: answers, every byte and word, and all
//! that stays untouched.
//!
//! COMPARE_COUNT phrases to write (20,000) and as many files to read, of COMPARE_SEED (1), from number COMPARE_FIRST (0)
//! on, for every four one of version 2, and for every two one of version 3; and all files that are stored.

#[path = "common/counts.rs"]
mod counts;
#[path = "common/differences.rs"]
mod differences;
#[path = "common/lent.rs"]
mod lent;
#[path = "common/rested_kinds.rs"]
mod rested_kinds;
#[path = "common/rested_writing.rs"]
mod rested_writing;
#[path = "common/settings.rs"]
mod settings;
#[path = "common/shifted_kinds.rs"]
mod shifted_kinds;
#[path = "common/shifted_writing.rs"]
mod shifted_writing;
#[path = "common/stored.rs"]
mod stored;
#[path = "common/tally.rs"]
mod tally;
#[path = "common/tried_notes.rs"]
mod tried_notes;
#[path = "common/was_10.rs"]
mod was_10;

use std::array;
use std::process::ExitCode;

use differences::{same, same_number};
use lent::Lent;
use reference::draft::Draft;
use reference::examples::{
    P, P_RESTED, P_SHIFTED, outermost_bells, p_rested_with, p_shifted_with, refused_of_version_3,
    rested_examples,
};
use reference::foreign::{self, HostPhrase};
use reference::note_order::{OF_FILES, OF_PHRASES, file_was_10, phrase_was_10, tried_notes};
use reference::random::{
    self, EditedCase, Generator, case, edited_case, rested_case, rested_edited_case, shifted_case,
    shifted_edited_case,
};
use reference::reading::{Refusal, read};
use reference::writing::{EditedPhrase, file_length, write};
use rested_kinds::RestedKinds;
use rested_writing::RestedWriting;
use settings::{Wanted, in_hexadecimal, named};
use shifted_kinds::ShiftedKinds;
use shifted_writing::ShiftedWriting;
use stored::stored_files;
use tally::Tally;
use tried_notes::demand_exactly;
use was_10::WasTen;

/// So many phrases have to meet every kind; fewer are for a look at one difference.
const ENOUGH: u64 = 5_000;
/// 96 bells, and 64 notes that list as many strokes as they can; by version, from 1 on.
const LONGEST: [usize; 3] = [1_822, 1_823, 2_015];

/// What was compared, by its answer.
#[derive(Default)]
struct Kinds {
    written: Tally,
    /// Refused phrases whose fields fit their bytes, so that the file could be read as well.
    fitting: Tally,
    /// Refused phrases that would be sound if their fields were cut to their bytes.
    only_too_wide: Tally,
    written_was_10: WasTen,
    read: Tally,
    read_was_10: WasTen,
    rooms: [u64; ROOMS.len()],
    longest: u64,
}

/// Buffers for phrases that break no rule.
const ROOMS: [&str; 6] = [
    "none",
    "shorter",
    "one byte short",
    "exact",
    "one byte more",
    "longer",
];

fn room_kind(room: usize, length: usize) -> usize {
    match room {
        0 => 0,
        _ if room + 1 < length => 1,
        _ if room < length => 2,
        _ if room == length => 3,
        _ if room == length + 1 => 4,
        _ => 5,
    }
}

impl Kinds {
    fn add(&mut self, case: &EditedCase, expected: &Result<Vec<u8>, Refusal>) {
        self.written.add(host_number(expected));
        self.written_was_10.add(phrase_was_10(&case.phrase));
        if let Ok(length) = file_length(&case.phrase) {
            self.rooms[room_kind(case.room, length)] += 1;
            let longest = LONGEST[case.phrase.version as usize - 1];
            self.longest += u64::from(length == longest && expected.is_ok());
        }
    }

    fn print(&self) {
        (self.written).print("random phrases to write that agree, by their answer");
        (self.fitting).print("of these, refused as their files are");
        (self.only_too_wide).print("of these, refused only because a field is too wide");
        self.written_was_10.print("of these");
        let rooms: Vec<String> = (ROOMS.iter().zip(self.rooms))
            .map(|(name, count)| format!("{name} {count}"))
            .collect();
        println!("buffers for sound phrases: {}", rooms.join(", "));
        println!("written with all bells, notes and waits: {}", self.longest);
        (self.read).print("random files to read that agree, by their answer");
        self.read_was_10.print("of these");
    }

    /// Names a kind that was never met, or too rarely in so many cases; these numbers are met in the version beside
    /// those of every version.
    fn demand_all(&self, cases: u64, beside: &[usize]) -> Result<(), String> {
        let refused = [1, 4, 5, 6, 7, 8, 9, 10, 11, 12];
        // Times have all bits of their fields, and two bells that sound for one key fit their bytes.
        let too_wide = [1, 4, 5, 6, 8, 9, 10, 12];
        demand("written", &self.written, &[0, 16])?;
        demand("read", &self.read, &[0, 2, 3])?;
        for (what, tally, numbers) in [
            ("written", &self.written, &refused[..]),
            ("refused as its file", &self.fitting, &refused),
            ("only too wide", &self.only_too_wide, &too_wide),
            ("read", &self.read, &refused),
        ] {
            demand(what, tally, numbers)?;
            demand(what, tally, beside)?;
        }
        self.written_was_10.demand(cases)?;
        self.read_was_10.demand(cases)?;
        match self.rooms.iter().position(|&count| count == 0) {
            Some(kind) => Err(format!("no buffer was {}", ROOMS[kind])),
            None if self.longest == 0 => Err("no phrase was the longest".to_string()),
            None => Ok(()),
        }
    }
}

fn demand(what: &str, tally: &Tally, numbers: &[usize]) -> Result<(), String> {
    match numbers.iter().find(|&&number| tally.counts[number] == 0) {
        Some(number) => Err(format!("{what}: {number} was never met")),
        None => Ok(()),
    }
}

/// What phrase_write has to return: the file's length, or the refusal.
fn host_number(expected: &Result<Vec<u8>, Refusal>) -> u64 {
    match expected {
        Ok(file) => file.len() as u64,
        Err(refusal) => refusal.host_number(),
    }
}

/// What phrase_read has to return: 0, or the refusal.
fn read_number(file: &[u8]) -> u64 {
    read(file).map_or_else(Refusal::host_number, |_| 0)
}

/// A phrase to read into, among words that are not lent. It starts where a word may, but no larger number.
#[repr(C)]
#[derive(Clone, PartialEq, Eq)]
struct Surrounded {
    before: [u32; 61],
    phrase: HostPhrase,
    after: [u32; 64],
}

impl Surrounded {
    fn new(random: &mut Generator) -> Box<Surrounded> {
        let mut content = || random.next_number() as u32;
        Box::new(Surrounded {
            before: array::from_fn(|_| content()),
            phrase: HostPhrase::filled(&mut content),
            after: array::from_fn(|_| content()),
        })
    }
}

/// phrase_write into a buffer of so many bytes: its answer, the bytes there and beyond, and the phrase itself.
fn compare_write(
    phrase: &HostPhrase,
    room: usize,
    expected: &Result<Vec<u8>, Refusal>,
    random: &mut Generator,
) -> Result<(), String> {
    let mut lent = Lent::new(room, || random.next_number() as u8);
    let mut lent_phrase = phrase.clone();
    let answer = foreign::phrase_write(&mut lent_phrase, lent.slice());
    same_number(host_number(expected), answer)?;
    let file = expected.as_deref().unwrap_or_default();
    let found = &lent.after[..file.len()];
    same(
        found == file,
        format!(
            "expected {}\nfound    {}",
            in_hexadecimal(file),
            in_hexadecimal(found)
        ),
    )?;
    same(
        lent.untouched_from(file.len()),
        format!("a byte from {} on was touched", file.len()),
    )?;
    same(lent_phrase == *phrase, "the phrase was changed")
}

/// phrase_read of a file: its answer, every word of the phrase, and the words around it.
fn compare_read(file: &[u8], random: &mut Generator) -> Result<HostPhrase, String> {
    let mut lent = Surrounded::new(random);
    let mut expected = lent.clone();
    expected.phrase = match &read(file) {
        Ok(phrase) => phrase.into(),
        Err(_) => HostPhrase::zero(),
    };
    let answer = foreign::phrase_read(file, &mut lent.phrase);
    same_number(read_number(file), answer)?;
    if let Some(difference) = first_difference(&expected.phrase, &lent.phrase) {
        return Err(difference);
    }
    same(*lent == *expected, "a word around the phrase was touched")?;
    Ok(lent.phrase)
}

fn first_difference(expected: &HostPhrase, found: &HostPhrase) -> Option<String> {
    let head = |p: &HostPhrase| [p.version, p.drivers, p.bell_count, p.note_count, p.shift];
    let (due, seen) = (head(expected), head(found));
    if due != seen {
        return Some(format!("head: expected {due:?}, found {seen:?}"));
    }
    for (number, (due, seen)) in expected.bells.iter().zip(&found.bells).enumerate() {
        if due != seen {
            return Some(format!("bell {number}: expected {due:?}, found {seen:?}"));
        }
    }
    for (number, (due, seen)) in expected.notes.iter().zip(&found.notes).enumerate() {
        if due != seen {
            return Some(format!("note {number}: expected {due:?}, found {seen:?}"));
        }
    }
    None
}

/// A file is read as it should, and what was read is written as the same file.
fn compare_file(file: &[u8], random: &mut Generator) -> Result<HostPhrase, String> {
    let phrase = compare_read(file, random).map_err(|found| format!("phrase_read: {found}"))?;
    if read(file).is_ok() {
        named("phrase_write of what was read", || {
            compare_write(&phrase, file.len(), &Ok(file.to_vec()), random)
        })?;
    }
    Ok(phrase)
}

/// A phrase is written as it should and read back, or refused as its file is.
fn compare_case(
    case: &EditedCase,
    random: &mut Generator,
    kinds: &mut Kinds,
) -> Result<(), String> {
    let EditedCase { phrase, room } = case;
    let expected = write(phrase, *room);
    let host = HostPhrase::of(phrase, || derived(random));
    named("phrase_write", || {
        compare_write(&host, *room, &expected, random)
    })?;
    kinds.add(case, &expected);
    match &expected {
        Ok(file) => {
            let back = compare_file(file, random)?;
            same(back.edited() == *phrase, "read back as another phrase")
        }
        Err(Refusal { number: 16, .. }) => Ok(()),
        Err(refusal) => compare_refused(case, *refusal, random, kinds),
    }
}

/// What nobody reads: any number, or one that could be a key or a bell.
fn derived(random: &mut Generator) -> u32 {
    let limit = random.pick(&[1, 128, 1 << 32]);
    random.below(limit) as u32
}

/// The file of a refused phrase is refused alike, by both readers; where there is no such file, the phrase is too wide.
fn compare_refused(
    case: &EditedCase,
    refusal: Refusal,
    random: &mut Generator,
    kinds: &mut Kinds,
) -> Result<(), String> {
    let Some(draft) = Draft::of(&case.phrase) else {
        if read(&Draft::cut(&case.phrase).bytes()).is_ok() {
            kinds.only_too_wide.add(refusal.host_number());
        }
        return Ok(());
    };
    kinds.fitting.add(refusal.host_number());
    let file = draft.bytes();
    same(
        read(&file) == Err(refusal),
        "this reader has another answer than this writer",
    )?;
    compare_file(&file, random).map(drop)
}

fn described(EditedCase { phrase, room }: &EditedCase) -> String {
    format!(
        "room {room}, version {}, drivers {}, shift {}, {} bells {:?}, {} notes {:?}",
        phrase.version,
        phrase.drivers,
        phrase.shift,
        phrase.bell_count,
        phrase.bells(),
        phrase.note_count,
        phrase.notes()
    )
}

/// A phrase to write and a file to read, both of this number.
fn compare_drawn(
    here: &str,
    edited: &EditedCase,
    file: &[u8],
    random: &mut Generator,
    kinds: &mut Kinds,
) -> Result<(), String> {
    compare_case(edited, random, kinds)
        .map_err(|difference| format!("{here}: {difference}\n{}", described(edited)))?;
    compare_file(file, random)
        .map_err(|difference| format!("{here}: {difference}\nfile {}", in_hexadecimal(file)))?;
    kinds.read.add(read_number(file));
    kinds.read_was_10.add(file_was_10(file));
    Ok(())
}

fn compare_random() -> Result<(), String> {
    let wanted = Wanted::new()?;
    let mut kinds = Kinds::default();
    for number in wanted.numbers(1) {
        let mut random = Generator::of_case(!wanted.seed, number);
        let edited = edited_case(wanted.seed, number);
        let file = case(wanted.seed, number).file;
        let here = wanted.name(number);
        compare_drawn(&here, &edited, &file, &mut random, &mut kinds)?;
    }
    kinds.print();
    if wanted.count < ENOUGH {
        return Ok(());
    }
    kinds.demand_all(wanted.count, &[])
}

fn compare_random_of_version_2() -> Result<(), String> {
    let wanted = Wanted::new()?;
    let numbers = wanted.numbers(random::CASES_PER_SHIFTED);
    let mut kinds = Kinds::default();
    let (mut written, mut read) = (ShiftedWriting::new(), ShiftedKinds::new());
    for number in numbers.clone() {
        let mut random = Generator::of_case(!wanted.seed, number);
        let edited = shifted_edited_case(wanted.seed, number);
        let file = shifted_case(wanted.seed, number).file;
        let here = format!("version 2, {}", wanted.name(number));
        compare_drawn(&here, &edited, &file, &mut random, &mut kinds)?;
        written.add(&edited.phrase);
        read.add(&file, read_number(&file));
    }
    println!("version 2:");
    kinds.print();
    written.print();
    read.print();
    let cases = numbers.end - numbers.start;
    if cases < ENOUGH {
        return Ok(());
    }
    kinds.demand_all(cases, &[19])?;
    written.demand_all(cases)?;
    read.demand_all(cases)
}

fn compare_random_of_version_3() -> Result<(), String> {
    let wanted = Wanted::new()?;
    let numbers = wanted.numbers(random::CASES_PER_RESTED);
    let mut kinds = Kinds::default();
    let (mut written, mut read) = (RestedWriting::new(), RestedKinds::new());
    for number in numbers.clone() {
        let mut random = Generator::of_case(!wanted.seed, number);
        let edited = rested_edited_case(wanted.seed, number);
        let file = rested_case(wanted.seed, number).file;
        let here = format!("version 3, {}", wanted.name(number));
        compare_drawn(&here, &edited, &file, &mut random, &mut kinds)?;
        written.add(&edited.phrase);
        read.add(&file, read_number(&file));
    }
    println!("version 3:");
    kinds.print();
    written.print();
    read.print();
    let cases = numbers.end - numbers.start;
    if cases < ENOUGH {
        return Ok(());
    }
    kinds.demand_all(cases, &[19])?;
    written.demand_all(cases)?;
    read.demand_all(cases)
}

/// Numbers that could be taken for a byte or for a signed word.
fn words() -> impl Iterator<Item = u32> {
    (0..=512).chain((0..=300).map(|less| u32::MAX - less))
}

/// Writes a phrase of an example after a change; gives the answer.
fn compare_changed(phrase: &EditedPhrase, random: &mut Generator) -> Result<u64, String> {
    const ROOM: usize = 90;
    let expected = write(phrase, ROOM);
    let host = HostPhrase::of(phrase, || derived(random));
    compare_write(&host, ROOM, &expected, random)
        .map_err(|difference| format!("{difference}\nversion {}, {phrase:?}", phrase.version))?;
    Ok(host_number(&expected))
}

fn compare_example(file: &[u8], random: &mut Generator) -> Result<(), String> {
    compare_file(file, random)
        .map(drop)
        .map_err(|difference| format!("file {}: {difference}", in_hexadecimal(file)))
}

/// Every key with every shift in range or just beyond, read; and, keys that are too wide as well, written.
fn compare_keys_and_shifts() -> Result<(), String> {
    let mut random = Generator::new(random::SEED);
    let (mut are_read, mut written) = (0, Tally::default());
    for shift in -25..=25 {
        for key in 0..=255 {
            let file = outermost_bells(key, shift);
            compare_example(&file, &mut random)?;
            are_read += u64::from(read(&file).is_ok());
        }
    }
    let mut phrase = edited(&outermost_bells(12, 0));
    for shift in -24..=24 {
        phrase.shift = u32::from(shift as u8);
        for key in words() {
            phrase.notes[0].key = key;
            written.add(compare_changed(&phrase, &mut random)?);
        }
    }
    let are_written = written.counts[0];
    println!("all keys with all shifts agree: {are_read} find a bell, {are_written} are written");
    // The upper bell with each of 49 shifts, the lower one with none above 12.
    let all_met = [are_read, are_written] == [49 + 37; 2];
    same(all_met, "other keys than there should be find a bell")
}

/// Every shift read in versions 2 and 3, and, shifts that are too wide as well, written in all versions.
fn compare_shifts() -> Result<(), String> {
    let mut random = Generator::new(random::SEED);
    for shift in 0..=255 {
        for file in [p_shifted_with(6, shift), p_rested_with(&[(6, shift)])] {
            compare_file(&file, &mut random)
                .map_err(|difference| format!("shift {shift}: {difference}"))?;
        }
    }
    let mut written = Tally::default();
    for mut phrase in [edited(&P), edited(&P_SHIFTED), edited(&P_RESTED)] {
        // Without notes, any shift in range is sound.
        for note_count in [0, 2] {
            phrase.note_count = note_count;
            for shift in words() {
                phrase.shift = shift;
                written.add(compare_changed(&phrase, &mut random)?);
            }
        }
    }
    let are_written = written.counts[0];
    println!("all shifts agree, {are_written} are written");
    // In version 1 only 0, with notes and without; then all without notes, and the one that they are written for.
    same(
        are_written == 2 + 2 * (49 + 1),
        "other shifts than there should be are sound",
    )
}

/// Rests at and around the limits of their range and of their bytes, and numbers whose low bytes are right.
fn rests() -> impl Iterator<Item = u32> {
    let wide = [1 << 16, 5_000 + (1 << 16), 1 << 24, 1 << 31, u32::MAX];
    (0..=5_300).chain(65_500..=65_600).chain(wide)
}

/// Every rest of two bytes read, and rests that are too wide as well written in all versions, for each bell.
fn compare_rests() -> Result<(), String> {
    let mut random = Generator::new(random::SEED);
    for (high, low) in (0..=255).flat_map(|high| (0..=255).map(move |low| (high, low))) {
        let file = p_rested_with(&[(23, high), (24, low)]);
        compare_example(&file, &mut random)?;
    }
    let mut written = Tally::default();
    for example in [&P[..], &P_SHIFTED, &P_RESTED] {
        for bell in [0, 1] {
            let mut phrase = edited(example);
            for rest in rests() {
                phrase.bells[bell].rest = rest;
                written.add(compare_changed(&phrase, &mut random)?);
            }
        }
    }
    let are_written = written.counts[0];
    println!("all rests agree, {are_written} are written");
    // In versions 1 and 2 only 0, in version 3 all up to 5000; for each of two bells.
    same(
        are_written == 2 * (1 + 1 + 5_001),
        "other rests than there should be are sound",
    )
}

/// The examples with rests, read and written again, and the files of version 3 that are refused.
fn compare_examples_of_version_3() -> Result<(), String> {
    let mut random = Generator::new(random::SEED);
    let sound = rested_examples().into_iter().map(|e| e.draft.bytes());
    let refused = refused_of_version_3().into_iter().map(|(file, ..)| file);
    for file in sound.chain(refused) {
        compare_example(&file, &mut random)?;
    }
    Ok(())
}

/// Every note of a phrase with any of rules 10, 11 and 12 broken, each in several ways: written, and read if all fits
/// its bytes.
fn compare_tried_notes() -> Result<(), String> {
    let mut random = Generator::new(random::SEED);
    let (mut written, mut are_read) = (Tally::default(), Tally::default());
    for tried in tried_notes() {
        written.add(compare_changed(&tried.phrase(), &mut random)?);
        if let Some(file) = tried.file() {
            compare_example(&file, &mut random)?;
            are_read.add(read_number(&file));
        }
    }
    let what = "phrases with tried notes to write that agree";
    demand_exactly(what, &written.counts, OF_PHRASES)?;
    let what = "files with tried notes to read that agree";
    demand_exactly(what, &are_read.counts, OF_FILES)
}

fn edited(example: &[u8]) -> EditedPhrase {
    EditedPhrase::from(&read(example).expect("the example is sound"))
}

fn compare_stored() -> Result<(), String> {
    let files = stored_files().map_err(|error| format!("stored files: {error}"))?;
    let mut random = Generator::new(random::SEED);
    let mut kinds = Tally::default();
    for stored in &files {
        compare_file(&stored.file, &mut random)
            .map_err(|difference| format!("{}: {difference}", stored.name))?;
        kinds.add(read_number(&stored.file));
    }
    println!(
        "stored files that agree: {}, of these read and written again: {}",
        files.len(),
        kinds.counts[0]
    );
    demand("stored", &kinds, &[0])
}

fn main() -> ExitCode {
    match compare_random()
        .and_then(|()| compare_stored())
        .and_then(|()| compare_keys_and_shifts())
        .and_then(|()| compare_shifts())
        .and_then(|()| compare_tried_notes())
        .and_then(|()| compare_random_of_version_2())
        .and_then(|()| compare_examples_of_version_3())
        .and_then(|()| compare_rests())
        .and_then(|()| compare_random_of_version_3())
    {
        Ok(()) => ExitCode::SUCCESS,
        Err(difference) => {
            println!("compare_writing: FAILED: {difference}");
            ExitCode::FAILURE
        }
    }
}
