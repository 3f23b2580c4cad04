//! Writes the stored vectors: FOLDER/stdin with phrase files, each after the words of its table, the bytes of its text buffer and its own length, two bytes
//! each, and FOLDER/stdout with what the program `report_examples` has to print for them. The first are worked by hand from the documents; the others are drawn,
//! and this checker says what is due. Then the same for version 2 of the phrase file, and for version 3.
//!
//!     cargo run --offline --manifest-path reference/Cargo.toml --bin vectors crates/report_examples

use std::fs;
use std::path::Path;

use reference::draft::DraftBell;
use reference::examples::{
    P, P_LOWER_REPORT, P_REPORT, P_RESTED, P_SHIFTED, RestedExample, late_by_a_rest, m6, m8,
    outermost_bells, p_lower, p_with, refused_of_version_2, refused_of_version_3, rested_examples,
};
use reference::printed::result;
use reference::random::{Case, Generator, case, rested_case, shifted_case};
use reference::report::{check_and_text, length_without_bells, report};
use reference::struck::{APART, StruckExample, struck_examples};

const SEED: u64 = 7;
/// The program reads no more than this.
const MOST_INPUT: usize = 65_536;
/// The parts of it that are kept for versions 2 and 3.
const VERSION_2_INPUT: usize = 8_192;
const VERSION_3_INPUT: usize = 16_384;
const MOST_WORDS: usize = 16_384;
const MOST_TEXT: usize = 8_192;

struct Example {
    table_words: usize,
    text_bytes: usize,
    file: Vec<u8>,
}

fn main() {
    let folder = std::env::args().nth(1).expect("usage: vectors FOLDER");
    let (input, output) = vectors();
    fs::write(Path::new(&folder).join("stdin"), input).expect("stdin can be written");
    fs::write(Path::new(&folder).join("stdout"), output).expect("stdout can be written");
}

fn vectors() -> (Vec<u8>, String) {
    let mut vectors = Vectors::default();
    let mut random = Generator::new(SEED);
    vectors.add_all(by_hand());
    let up_to_version_2 = MOST_INPUT - VERSION_3_INPUT;
    vectors.add_drawn(&mut random, case, up_to_version_2 - VERSION_2_INPUT);
    vectors.add_all(by_hand_of_version_2());
    vectors.add_drawn(&mut random, shifted_case, up_to_version_2);
    vectors.add_all(by_hand_of_version_3());
    vectors.add_drawn(&mut random, rested_case, MOST_INPUT);
    (vectors.input, vectors.output)
}

#[derive(Default)]
struct Vectors {
    input: Vec<u8>,
    output: String,
}

impl Vectors {
    fn add_all(&mut self, examples: Vec<(Example, String)>) {
        for (example, printed) in examples {
            self.input.extend(framed(&example));
            self.output += &printed;
        }
    }

    /// Cases of a stream, until the next one would make the input longer than this.
    fn add_drawn(&mut self, random: &mut Generator, case: fn(u64, u64) -> Case, most: usize) {
        for number in 0.. {
            let drawn = case(SEED, number);
            if MOST_WORDS < drawn.table_words {
                continue;
            }
            let example = Example {
                table_words: drawn.table_words,
                text_bytes: text_bytes(random, &drawn.file, drawn.table_words),
                file: drawn.file,
            };
            let framed = framed(&example);
            if most < self.input.len() + framed.len() {
                break;
            }
            self.input.extend(framed);
            self.output += &printed(&example);
        }
    }
}

const NOTHING: &str = "earliest, clear\nlatest, clear\nbest, clear\nworst, clear\n";

/// A file with buffers that its text fits, exactly or with room to spare, and with buffers that are one byte too short for it or more: 15, for which nothing
/// is written, and nothing but zeros stands beside it.
fn in_buffers(
    file: &[u8],
    table_words: usize,
    short: &[usize],
    fitting: &[usize],
    printed: &str,
) -> Vec<(Example, String)> {
    let too_short =
        format!("length 0, rest unchanged\nrefused 15 at 0, jobs 0, states 0\n{NOTHING}");
    let with = |text_bytes: usize, printed: &str| {
        let example = Example {
            table_words,
            text_bytes,
            file: file.to_vec(),
        };
        (example, printed.to_string())
    };
    let short = short.iter().map(|&bytes| with(bytes, &too_short));
    let fitting = fitting.iter().map(|&bytes| with(bytes, printed));
    short.chain(fitting).collect()
}

/// What is printed for P's strokes, which end and respond alike wherever they sound.
fn p_printed(text: &str) -> String {
    format!(
        "{text}length 189, rest unchanged\naccepted, jobs 2, states 4\n\
         earliest 2 4, clear\nlatest 7 6, clear\nbest 2 4, clear\nworst 7 6, clear\n"
    )
}

/// What is printed for a refusal of reading, and the length of its line.
fn refused_printed(number: u64, place: u64) -> (String, usize) {
    let line = format!("refused {number} at {place}");
    let length = line.len() + 1;
    let printed =
        format!("{line}\nlength {length}, rest unchanged\n{line}, jobs 0, states 0\n{NOTHING}");
    (printed, length)
}

fn by_hand() -> Vec<(Example, String)> {
    let mut all = Vec::new();
    let mut add = |file: &[u8], table_words, short: &[usize], fitting: &[usize], printed: &str| {
        all.extend(in_buffers(file, table_words, short, fitting, printed));
    };

    add(
        &P,
        16_384,
        // Without its bells' lines the text would have 141 bytes.
        &[10, 188, 141, 140, 1, 0],
        &[189, 190, MOST_TEXT],
        &p_printed(P_REPORT),
    );
    let printed = "\
stroke 0 key C0 bell 0 ends 2..4 response 2..4 due 3600000
stroke 1 key C#0 bell 1 ends 3..5 response 3..5 due 3600000
stroke 2 key D0 bell 2 ends 5..6 response 2..3 due 3600000
bell 0 strokes 1 hold 4
bell 1 strokes 1 hold 1
bell 2 strokes 1 hold 2
accepted strokes 3 states 5 hold 7
length 285, rest unchanged
accepted, jobs 3, states 5
earliest 2 3 5, clear
latest 4 5 6, clear
best 2 3 2, clear
worst 4 5 3, clear
";
    add(&m6(), 16_384, &[284, 213, 0], &[285], printed);
    let (printed, _) = refused_printed(4, 5);
    add(&[1, 0, 0, 0, 1, 0], 0, &[14, 0], &[15, 16], &printed);
    let printed = format!(
        "refused 13 level 1\nlength 19, rest unchanged\nrefused 13 at 1, jobs 0, states 0\n{NOTHING}"
    );
    add(&P, 31, &[18, 0], &[19, 20], &printed);
    let printed = format!(
        "refused 14 stroke 0 ends 6..7\nlength 30, rest unchanged\nlate 0 ends 6 7, jobs 0, states 0\n{NOTHING}"
    );
    add(&p_with(35, 6), 16_384, &[29, 0], &[30, 31], &printed);
    let printed = format!(
        "accepted strokes 0 states 1 hold 0\nlength 35, rest unchanged\naccepted, jobs 0, states 1\n{NOTHING}"
    );
    add(&m8(), 8, &[34, 0], &[35, 36], &printed);
    all.extend(struck(1));
    all
}

fn by_hand_of_version_2() -> Vec<(Example, String)> {
    let printed = p_printed(P_REPORT);
    let mut all = in_buffers(&P_SHIFTED, 16_384, &[188], &[189], &printed);
    let printed = p_printed(P_LOWER_REPORT);
    all.extend(in_buffers(&p_lower(), 32, &[188], &[189], &printed));

    // Written above 119 or below 12, and shifted to the highest and the lowest bell.
    for (key, shift, (name, bell)) in [
        (143, -24, ("B8", 1)),
        (120, -1, ("B8", 1)),
        (95, 24, ("B8", 1)),
        (36, -24, ("C0", 0)),
        (11, 1, ("C0", 0)),
        (0, 12, ("C0", 0)),
    ] {
        let printed = format!(
            "stroke 0 key {name} bell {bell} ends 1..1 response 1..1 due 3600000\n\
             bell {bell} strokes 1 hold 1\naccepted strokes 1 states 2 hold 1\n\
             length 118, rest unchanged\naccepted, jobs 1, states 2\n\
             earliest 1, clear\nlatest 1, clear\nbest 1, clear\nworst 1, clear\n"
        );
        let file = outermost_bells(key, shift);
        all.extend(in_buffers(&file, 24, &[], &[118], &printed));
    }

    for (file, number, place) in refused_of_version_2() {
        let (printed, length) = refused_printed(number, place);
        all.extend(in_buffers(&file, 0, &[], &[length], &printed));
    }
    all.extend(struck(2));
    all
}

fn by_hand_of_version_3() -> Vec<(Example, String)> {
    let printed = p_printed(P_REPORT);
    let mut all = in_buffers(&P_RESTED, 32, &[188], &[189], &printed);
    for example in rested_examples() {
        let (printed, length) = rested_printed(&example);
        let file = example.draft.bytes();
        all.extend(in_buffers(
            &file,
            MOST_WORDS,
            &[length - 1],
            &[length],
            &printed,
        ));
        // Room for one state in each half, which is enough for phrases with one state a level; and one word less.
        let pair = 2 * (2 + 2 * usize::from(example.draft.drivers) + 2 * example.ends.len());
        all.extend(in_buffers(&file, pair, &[], &[length], &printed));
        let full = format!(
            "refused 13 level 0\nlength 19, rest unchanged\nrefused 13 at 0, jobs 0, states 0\n{NOTHING}"
        );
        all.extend(in_buffers(&file, pair - 1, &[], &[19], &full));
    }
    let printed = format!(
        "refused 14 stroke 1 ends 7..7\nlength 30, rest unchanged\nlate 1 ends 7 7, jobs 0, states 0\n{NOTHING}"
    );
    all.extend(in_buffers(
        &late_by_a_rest(),
        MOST_WORDS,
        &[29],
        &[30],
        &printed,
    ));
    for (file, number, place) in refused_of_version_3() {
        let (printed, length) = refused_printed(number, place);
        all.extend(in_buffers(&file, 0, &[], &[length], &printed));
    }
    all.extend(struck(3));
    all
}

/// The phrases of this version made for the bells' lines: in a buffer as long as the text, one byte shorter, and, where there
/// are such lines, one with room for all others.
fn struck(version: u8) -> Vec<(Example, String)> {
    let mut all = Vec::new();
    for example in struck_examples() {
        if example.draft.version != version {
            continue;
        }
        let length = example.text.len();
        let mut short = vec![length - 1];
        let without = length_without_bells(example.text);
        short.extend((without < length).then_some(without));
        let file = example.draft.bytes();
        let printed = struck_printed(&example);
        all.extend(in_buffers(&file, MOST_WORDS, &short, &[length], &printed));
    }
    all
}

/// What is printed for such a phrase: its strokes start when they are called, and there is one state a level.
fn struck_printed(example: &StruckExample) -> String {
    let row = |name, time: fn(u32, &DraftBell) -> u32| {
        let times = (0..).zip(&example.struck).map(|(number, &bell)| {
            let bell = &example.draft.bells[bell];
            format!(" {}", time(APART * number, bell))
        });
        format!("{name}{}, clear\n", times.collect::<String>())
    };
    let (text, length) = (example.text, example.text.len());
    let strokes = example.struck.len();
    let states = strokes + 1;
    [
        format!("{text}length {length}, rest unchanged\n"),
        format!("accepted, jobs {strokes}, states {states}\n"),
        row("earliest", |call, bell| call + u32::from(bell.ca)),
        row("latest", |call, bell| call + u32::from(bell.cb)),
        row("best", |_, bell| bell.ca.into()),
        row("worst", |_, bell| bell.cb.into()),
    ]
    .concat()
}

/// What is printed for an example by what was worked out for it, and the length of its text. All its strokes are called from 0
/// on, so that they respond as they end.
fn rested_printed(example: &RestedExample) -> (String, usize) {
    let draft = &example.draft;
    let mut text = String::new();
    let mut hold = 0;
    for (number, (note, (low, high))) in draft.notes.iter().zip(&example.ends).enumerate() {
        assert_eq!(note.ra, 0);
        let bell = usize::from(note.key - 12);
        let (name, due) = (["C0", "C#0"][bell], note.due);
        hold += draft.bells[bell].cb;
        text += &format!(
            "stroke {number} key {name} bell {bell} ends {low}..{high} response {low}..{high} due {due}\n"
        );
    }
    for (key, (number, bell)) in (12..).zip(draft.bells.iter().enumerate()) {
        let count = draft.notes.iter().filter(|note| note.key == key).count();
        if count > 0 {
            let hold = count * usize::from(bell.cb);
            text += &format!("bell {number} strokes {count} hold {hold}\n");
        }
    }
    let (strokes, states) = (example.ends.len(), example.states);
    text += &format!("accepted strokes {strokes} states {states} hold {hold}\n");
    let row = |time: fn(&(u64, u64)) -> u64| -> String {
        (example.ends.iter())
            .map(|ends| format!(" {}", time(ends)))
            .collect()
    };
    let (low, high, length) = (row(|ends| ends.0), row(|ends| ends.1), text.len());
    let printed = format!(
        "{text}length {length}, rest unchanged\naccepted, jobs {strokes}, states {states}\n\
         earliest{low}, clear\nlatest{high}, clear\nbest{low}, clear\nworst{high}, clear\n"
    );
    (printed, length)
}

fn framed(example: &Example) -> Vec<u8> {
    let mut bytes = Vec::new();
    for size in [example.table_words, example.text_bytes, example.file.len()] {
        bytes.extend(u16::try_from(size).expect("fits two bytes").to_be_bytes());
    }
    bytes.extend(&example.file);
    bytes
}

/// What the program has to print, by this checker.
fn printed(example: &Example) -> String {
    let mut buffer = vec![0; example.text_bytes];
    let (check, length) = report(&example.file, example.table_words, &mut buffer);
    let text = str::from_utf8(&buffer[..length]).expect("a report is text");
    format!("{text}length {length}, rest unchanged\n{}", result(&check))
}

/// As long as the text in half of the cases; else one byte shorter, as long as it is without its bells' lines, some bytes
/// longer, or all that there is.
fn text_bytes(random: &mut Generator, file: &[u8], table_words: usize) -> usize {
    let (_, text) = check_and_text(file, table_words);
    match random.below(8) {
        0 => text.len() - 1,
        1 => length_without_bells(&text),
        2 => text.len() + random.below(100) as usize,
        3 => MOST_TEXT,
        _ => text.len(),
    }
}

#[cfg(test)]
mod tests {
    use super::*;

    #[test]
    fn this_checker_gives_what_is_worked_by_hand() {
        let all = [by_hand(), by_hand_of_version_2(), by_hand_of_version_3()];
        for (example, expected) in all.into_iter().flatten() {
            assert_eq!(printed(&example), expected);
        }
    }

    #[test]
    fn the_stored_vectors_are_these() {
        let folder = Path::new(env!("CARGO_MANIFEST_DIR")).join("../crates/report_examples");
        let (input, output) = vectors();
        assert!(fs::read(folder.join("stdin")).expect("stdin is there") == input);
        assert!(fs::read(folder.join("stdout")).expect("stdout is there") == output.as_bytes());
    }
}
