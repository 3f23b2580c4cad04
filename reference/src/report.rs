//! The report: its text to the byte, refusal lines, and 15 when the buffer is too short.

use std::collections::BTreeMap;
use std::fmt::{self, Write};

use crate::check::{Answer, Check, check_phrase};
use crate::reading::{self, Phrase, Stroke};

const NAMES: [&str; 12] = [
    "C", "C#", "D", "D#", "E", "F", "F#", "G", "G#", "A", "A#", "B",
];

/// A line of the table after the strokes (request #108): a bell that has any.
#[derive(Clone, Copy, Debug, PartialEq, Eq)]
pub struct BellLine {
    pub bell: usize,
    /// How many.
    pub strokes: usize,
    /// The sum of their cb.
    pub hold: u64,
}

impl fmt::Display for BellLine {
    fn fmt(&self, f: &mut fmt::Formatter<'_>) -> fmt::Result {
        let BellLine {
            bell,
            strokes,
            hold,
        } = self;
        write!(f, "bell {bell} strokes {strokes} hold {hold}")
    }
}

/// The table's lines, bells rising.
pub fn bell_lines(strokes: &[Stroke]) -> Vec<BellLine> {
    let mut lines = BTreeMap::new();
    for stroke in strokes {
        let bell = stroke.bell;
        let line = lines.entry(bell).or_insert(BellLine {
            bell,
            strokes: 0,
            hold: 0,
        });
        line.strokes += 1;
        line.hold += stroke.hold.high;
    }
    lines.into_values().collect()
}

/// Reads and checks the file, writes the text, gives the answer and the text's length.
pub fn report(file: &[u8], table_words: usize, buffer: &mut [u8]) -> (Check, usize) {
    let (check, text) = check_and_text(file, table_words);
    match buffer.get_mut(..text.len()) {
        Some(place) => {
            place.copy_from_slice(text.as_bytes());
            (check, text.len())
        }
        None => (
            Check::bare(Answer::Refused {
                number: 15,
                place: 0,
            }),
            0,
        ),
    }
}

/// The check, and the text that a buffer long enough would hold.
pub fn check_and_text(file: &[u8], table_words: usize) -> (Check, String) {
    match reading::read(file) {
        Ok(phrase) => {
            let check = check_phrase(&phrase, table_words);
            let text = text(&phrase, &check);
            (check, text)
        }
        Err(refusal) => {
            let check = Check::bare(refusal.into());
            let text = refusal_line(&check.answer);
            (check, text)
        }
    }
}

/// The text for a phrase that was read, and its check.
pub fn text(phrase: &Phrase, check: &Check) -> String {
    if check.is_accepted() {
        accepted_text(phrase, check)
    } else {
        refusal_line(&check.answer)
    }
}

fn accepted_text(phrase: &Phrase, check: &Check) -> String {
    let mut text = String::new();
    write_lines(&mut text, phrase, check).expect("a string takes all that is written to it");
    text
}

fn write_lines(text: &mut String, phrase: &Phrase, check: &Check) -> fmt::Result {
    for (number, stroke) in phrase.strokes.iter().enumerate() {
        let (name, octave) = key_name(stroke.key);
        let (bell, due) = (stroke.bell, stroke.due);
        let (ends, response) = (check.ends[number], check.responses[number]);
        writeln!(
            text,
            "stroke {number} key {name}{octave} bell {bell} ends {ends} response {response} due {due}"
        )?;
    }
    let lines = bell_lines(&phrase.strokes);
    for line in &lines {
        writeln!(text, "{line}")?;
    }
    let hold: u64 = lines.iter().map(|line| line.hold).sum();
    writeln!(
        text,
        "accepted strokes {} states {} hold {hold}",
        check.strokes, check.states
    )
}

fn refusal_line(answer: &Answer) -> String {
    match *answer {
        Answer::Accepted => unreachable!("an accepted phrase has its strokes printed"),
        Answer::Refused { number: 13, place } => format!("refused 13 level {place}\n"),
        Answer::Refused { number, place } => format!("refused {number} at {place}\n"),
        Answer::Late { stroke, ends } => format!("refused 14 stroke {stroke} ends {ends}\n"),
    }
}

/// How long a text is without its bells' lines, as it was before request #108.
pub fn length_without_bells(text: &str) -> usize {
    (text.split_inclusive('\n'))
        .filter(|line| !line.starts_with("bell "))
        .map(str::len)
        .sum()
}

/// Letter name and octave; keys are 12 to 119, so octaves are 0 to 8.
fn key_name(key: i64) -> (&'static str, i64) {
    (NAMES[(key % 12) as usize], key / 12 - 1)
}

#[cfg(test)]
mod tests {
    use super::key_name;

    #[test]
    fn keys_have_their_names() {
        assert_eq!(key_name(12), ("C", 0));
        assert_eq!(key_name(13), ("C#", 0));
        assert_eq!(key_name(60), ("C", 4));
        assert_eq!(key_name(69), ("A", 4));
        assert_eq!(key_name(74), ("D", 5));
        assert_eq!(key_name(119), ("B", 8));
    }
}
