//! What phrases of version 2 were written or refused: shifts and keys, each in the ways that a careless writer would take.

use reference::layout::Layout;
use reference::reading::Refusal;
use reference::writing::{EditedPhrase, file_length};

use crate::counts::Counts;

pub struct ShiftedWriting {
    sound: Counts<4>,
    wrong_shifts: Counts<5>,
    misses: Counts<5>,
}

impl ShiftedWriting {
    pub fn new() -> ShiftedWriting {
        ShiftedWriting {
            sound: Counts::new(
                "sound with a shift",
                [
                    "below 0",
                    "above 0",
                    "and a key above 119",
                    "and a key below 12",
                ],
            ),
            wrong_shifts: Counts::new(
                "19",
                [
                    "in version 1",
                    "in version 1 for a shift in range",
                    "for a byte out of range",
                    "for a low byte in range",
                    "for a negative word in range",
                ],
            ),
            misses: Counts::new(
                "10, the sum missing a bell",
                [
                    "that the key has without the shift",
                    "that it has with the shift the other way",
                    "that the low byte of the key has with it",
                    "that the low byte of the sum has",
                    "that its 32 bits have",
                ],
            ),
        }
    }

    /// A phrase drawn as one of version 2, whatever the room for its file.
    pub fn add(&mut self, phrase: &EditedPhrase) {
        match file_length(phrase) {
            Ok(_) if phrase.shift != 0 => self.add_sound(phrase),
            Err(Refusal { number: 19, .. }) => self.add_wrong_shift(phrase),
            Err(Refusal { number: 10, place }) => self.add_miss(phrase, place as usize),
            _ => {}
        }
    }

    fn add_sound(&mut self, phrase: &EditedPhrase) {
        let keys = || phrase.notes().iter().map(|note| note.key);
        self.sound.add([
            phrase.shift > 24,
            phrase.shift <= 24,
            keys().any(|key| key > 119),
            keys().any(|key| key < 12),
        ]);
    }

    fn add_wrong_shift(&mut self, phrase: &EditedPhrase) {
        let (is_1, shift) = (phrase.version == 1, phrase.shift);
        let in_range = |shift: i32| (-24..=24).contains(&shift);
        let byte_in_range = in_range(i32::from(shift as i8));
        self.wrong_shifts.add([
            is_1,
            is_1 && shift <= 255 && byte_in_range,
            !is_1 && shift <= 255,
            !is_1 && shift > 255 && byte_in_range,
            !is_1 && shift > 255 && in_range(shift as i32),
        ]);
    }

    /// A phrase refused with 10 at this place.
    fn add_miss(&mut self, phrase: &EditedPhrase, place: usize) {
        let shift = i64::from(phrase.shift as i8);
        let sounding: Vec<i64> = (phrase.bells().iter())
            .map(|bell| i64::from(bell.written) + i64::from(bell.transposition as i8))
            .collect();
        let has_bell = |key: i64| shift != 0 && sounding.contains(&key);
        let key = i64::from(key_at(phrase, place));
        let sum = key + shift;
        self.misses.add([
            has_bell(key),
            has_bell(key - shift),
            key > 255 && has_bell((key & 0xFF) + shift),
            key <= 255 && has_bell(sum & 0xFF),
            has_bell(sum & 0xFFFF_FFFF),
        ]);
    }

    pub fn print(&self) {
        self.sound.print();
        self.wrong_shifts.print();
        self.misses.print();
    }

    /// Names a kind that was too rarely met in so many cases.
    pub fn demand_all(&self, cases: u64) -> Result<(), String> {
        self.sound.demand(cases, 50)?;
        self.wrong_shifts.demand(cases, 1_000)?;
        self.misses.demand(cases, 2_500)
    }
}

/// The key of the note that begins at this place of the file.
fn key_at(phrase: &EditedPhrase, place: usize) -> u32 {
    let layout = Layout::of(phrase.version.into()).expect("a note was refused");
    let mut at = layout.bells_at() + layout.bell_bytes() * phrase.bells().len() + 1;
    for note in phrase.notes() {
        if at == place {
            return note.key;
        }
        at += 14 + note.waits().len();
    }
    unreachable!("a note begins at this place");
}
