//! Rules 11, 10 and 12, which one note can break together, in the order of request #105: a phrase with each of its
//! notes tried in many ways, right and wrong, and which answers the request changed.

use crate::draft::{Draft, DraftBell, DraftNote};
use crate::reading::{Refusal, read};
use crate::writing::{EditedNote, EditedPhrase, file_length};

/// Where the four notes of the sound phrase begin in version 1.
const NOTES_AT: [u64; 4] = [22, 36, 51, 67];
/// By version, how much further on they begin: after a shift, and after the rests of two bells.
const FURTHER_ON: [u64; 3] = [0, 1, 5];
/// From version 2 on the keys are written so much higher: the shift is -13.
const HIGHER: u32 = 13;

/// A table of so many words has room for one state of 14 in each half, which the sound phrase needs.
pub const ENOUGH_WORDS: usize = 28;

/// What the phrases with tried notes are answered.
pub const ANSWERS: [usize; 4] = [0, 10, 11, 12];

/// How many of the phrases have each of these answers. A note has 8 wrong keys, 8 wrong times and 8 wrong lists beside
/// the right ones. All is right once; 10 takes a wrong key, right times and any list, 8 x 9; 11 takes wrong times with
/// any key and any list, 8 x 9 x 9; 12 takes a wrong list alone, 8. All this 12 times, for 4 notes in 3 versions.
pub const OF_PHRASES: [u64; 4] = [12, 864, 7_776, 96];

/// The same of those phrases whose fields fit their bytes, so that they have files. Of the wrong keys 4 do, and of the
/// wrong lists 5: it is 12 times 1, 4 x 6, 8 x 5 x 6, and 5.
pub const OF_FILES: [u64; 4] = [12, 288, 2_880, 60];

/// A note of the sound phrase, with any of its key, its times and its list wrong.
#[derive(Clone, Copy, Debug)]
pub struct TriedNote {
    version: u32,
    number: usize,
    note: EditedNote,
}

impl TriedNote {
    /// The phrase with this note.
    pub fn phrase(&self) -> EditedPhrase {
        let mut phrase = sound(self.version);
        phrase.notes[self.number] = self.note;
        phrase
    }

    /// The file of this phrase; none if a field is too wide for its bytes.
    pub fn file(&self) -> Option<Vec<u8>> {
        Draft::of(&self.phrase()).map(|draft| draft.bytes())
    }

    /// What is due: the number of the first in order that is wrong, at the first byte of the note.
    pub fn refusal(&self) -> Option<Refusal> {
        let times = |note: &EditedNote| [note.ra, note.rb, note.due];
        let (note, right) = (&self.note, &sound(self.version).notes[self.number]);
        let number = if times(note) != times(right) {
            11
        } else if note.key != right.key {
            10
        } else if note.waits() != right.waits() {
            12
        } else {
            return None;
        };
        let place = NOTES_AT[self.number] + FURTHER_ON[self.version as usize - 1];
        Some(Refusal { number, place })
    }
}

/// Each note of the sound phrase in all versions, with every choice of a key, times and a list.
pub fn tried_notes() -> Vec<TriedNote> {
    let mut all = Vec::new();
    for (version, higher) in [(1, 0), (2, HIGHER), (3, HIGHER)] {
        for (number, right) in sound(version).notes().iter().enumerate() {
            let tried = tried(right, number as u32, higher);
            all.extend(tried.into_iter().map(|note| TriedNote {
                version,
                number,
                note,
            }));
        }
    }
    all
}

/// The phrase whose notes are tried: it is accepted, each stroke due at its latest end. In version 3 both bells have rested by
/// the earliest call of their second strokes.
fn sound(version: u32) -> EditedPhrase {
    let bell = |written, transposition, hold, rank| DraftBell {
        written,
        transposition,
        ca: hold,
        cb: hold,
        rest: None,
        rank,
    };
    // Sounding for 60 and 74; 62 is only written.
    let bells = vec![bell(60, 0, 2, 1), bell(62, 12, 4, 2)];
    let notes = vec![
        DraftNote::new(60, 0, 5, 7, vec![]),
        DraftNote::new(74, 0, 0, 11, vec![0]),
        DraftNote::new(60, 10, 20, 22, vec![0, 1]),
        DraftNote::new(74, 15, 15, 26, vec![2]),
    ];
    let mut draft = Draft::new(2, bells, notes);
    if version == 3 {
        draft = draft.rested(|| 3);
    }
    if version >= 2 {
        let shifted = draft.shifted(-(HIGHER as i8));
        draft = shifted.expect("every key is still a byte");
    }
    EditedPhrase::from(&draft)
}

/// The note with this number with every choice; its keys are written so much higher than they sound.
fn tried(right: &EditedNote, own_number: u32, higher: u32) -> Vec<EditedNote> {
    let mut all = Vec::new();
    for key in keys(right.key, higher) {
        for [ra, rb, due] in times([right.ra, right.rb, right.due]) {
            for listed in lists(right.waits(), own_number) {
                let mut note = EditedNote {
                    key,
                    ra,
                    rb,
                    due,
                    wait_count: listed.len() as u32,
                    ..EditedNote::default()
                };
                note.waits[..listed.len()].copy_from_slice(&listed);
                all.push(note);
            }
        }
    }
    all
}

/// The right key, four wrong ones, and four that are too wide for a byte.
fn keys(right: u32, higher: u32) -> [u32; 9] {
    [
        right,
        // Only written.
        62 + higher,
        // Of no bell; from version 2 on, the key of bell 1 but for the shift.
        61 + higher,
        0,
        255,
        right + 256,
        right + 65_536,
        right + (1 << 31),
        u32::MAX,
    ]
}

/// The right times, and eight that are wrong: ra above rb, or what is too late, by little and by much.
fn times([ra, rb, due]: [u32; 3]) -> [[u32; 3]; 9] {
    const LATE: u32 = 3_600_001;
    const LATEST: u32 = u32::MAX;
    [
        [ra, rb, due],
        [rb + 1, rb, due],
        [ra, LATE, due],
        [LATE, LATE, due],
        [ra, rb, LATE],
        [LATEST, rb, due],
        [ra, LATEST, due],
        [ra, rb, LATEST],
        [LATEST, LATEST, LATEST],
    ]
}

/// The right list, five wrong ones, and three with a number that is too wide for a byte.
fn lists(right: &[u32], own_number: u32) -> [Vec<u32>; 9] {
    [
        right.to_vec(),
        vec![own_number],
        vec![0, 0],
        vec![1, 0],
        vec![255],
        // As many as there may be; only the last is wrong in the last note.
        vec![0, 1, 2, own_number],
        // Cut to a byte, these two would be right in the last two notes.
        vec![256],
        vec![0, 257],
        vec![u32::MAX],
    ]
}

/// Whether a file is 11 for a note whose key has no bell; until request #105 it was 10.
pub fn file_was_10(file: &[u8]) -> bool {
    let Err(Refusal { number: 11, place }) = read(file) else {
        return false;
    };
    // With right times, 10 is the next that the note can be.
    let mut other = file.to_vec();
    other[place as usize + 2..][..12].fill(0);
    read(&other) == Err(Refusal { number: 10, place })
}

/// Whether a phrase to write is 11 for such a note.
pub fn phrase_was_10(phrase: &EditedPhrase) -> bool {
    let Err(Refusal { number: 11, place }) = file_length(phrase) else {
        return false;
    };
    // The notes before it have right times already, and those after it do not matter.
    let mut other = phrase.clone();
    for note in &mut other.notes {
        (note.ra, note.rb, note.due) = (0, 0, 0);
    }
    file_length(&other) == Err(Refusal { number: 10, place })
}
