//! A phrase file before it is written; every field, counts and lengths too, may be wrong. Also a playing's bytes.

use crate::dispatch::Scenario;
use crate::layout::Layout;
use crate::writing::{EditedBell, EditedNote, EditedPhrase};

#[derive(Clone, Debug, PartialEq, Eq)]
pub struct DraftBell {
    pub written: u8,
    pub transposition: i8,
    pub ca: u16,
    pub cb: u16,
    /// Two bytes after cb, as files of version 3 have them.
    pub rest: Option<u16>,
    pub rank: u8,
}

#[derive(Clone, Debug, PartialEq, Eq)]
pub struct DraftNote {
    pub length: u8,
    pub key: u8,
    pub ra: u32,
    pub rb: u32,
    pub due: u32,
    pub waits: Vec<u8>,
}

impl DraftNote {
    /// A note whose length byte is right.
    pub fn new(key: u8, ra: u32, rb: u32, due: u32, waits: Vec<u8>) -> DraftNote {
        DraftNote {
            length: 13 + waits.len() as u8,
            key,
            ra,
            rb,
            due,
            waits,
        }
    }
}

#[derive(Clone, Debug, PartialEq, Eq)]
pub struct Draft {
    pub version: u8,
    /// Added to the right count of bytes, wrapping.
    pub count_error: u32,
    pub drivers: u8,
    /// A byte after the driver count, as files have it from version 2 on.
    pub shift: Option<i8>,
    pub bell_count: u8,
    pub bells: Vec<DraftBell>,
    pub stroke_count: u8,
    pub notes: Vec<DraftNote>,
    /// Bytes after the last note.
    pub remaining: Vec<u8>,
}

impl Draft {
    /// A draft of version 1 whose counts are right.
    pub fn new(drivers: u8, bells: Vec<DraftBell>, notes: Vec<DraftNote>) -> Draft {
        Draft {
            version: 1,
            count_error: 0,
            drivers,
            shift: None,
            bell_count: bells.len() as u8,
            bells,
            stroke_count: notes.len() as u8,
            notes,
            remaining: Vec::new(),
        }
    }

    /// A draft of version 1 made one of version 2, or one of version 3 given another shift than 0: its keys are written so that
    /// with this shift they find the bells that they found; none if one of them would be no byte.
    pub fn shifted(mut self, shift: i8) -> Option<Draft> {
        self.version = self.version.max(2);
        self.shift = Some(shift);
        for note in &mut self.notes {
            let written = i16::from(note.key) - i16::from(shift);
            note.key = u8::try_from(written).ok()?;
        }
        Some(self)
    }

    /// A draft of version 1 or 2 made one of version 3 with these rests, bell by bell; the same bells are struck.
    pub fn rested(mut self, mut rest: impl FnMut() -> u16) -> Draft {
        self.version = 3;
        self.shift = self.shift.or(Some(0));
        for bell in &mut self.bells {
            bell.rest = Some(rest());
        }
        self
    }

    /// What one more bell has for its rest: bytes if the others have them.
    pub fn another_rest(&self) -> Option<u16> {
        self.bells.first().and_then(|bell| bell.rest)
    }

    pub fn bytes(&self) -> Vec<u8> {
        let mut file = vec![self.version, 0, 0, 0, 0, self.drivers];
        file.extend(self.shift.map(|shift| shift as u8));
        file.push(self.bell_count);
        for bell in &self.bells {
            file.push(bell.written);
            file.extend(bell.transposition.to_be_bytes());
            file.extend(bell.ca.to_be_bytes());
            file.extend(bell.cb.to_be_bytes());
            file.extend(bell.rest.into_iter().flat_map(u16::to_be_bytes));
            file.push(bell.rank);
        }
        file.push(self.stroke_count);
        for note in &self.notes {
            file.push(note.length);
            file.push(note.key);
            for time in [note.ra, note.rb, note.due] {
                file.extend(time.to_be_bytes());
            }
            file.extend(&note.waits);
        }
        file.extend(&self.remaining);
        correct_count(&mut file, self.count_error);
        file
    }
}

/// A playing of these values, in a phrase's ranges or not; its version and count are right.
pub fn playing_bytes(scenario: &Scenario) -> Vec<u8> {
    let mut playing = vec![1, 0, 0, 0, 0];
    for (&call, &hold) in scenario.calls.iter().zip(&scenario.holds) {
        playing.extend((call as u32).to_be_bytes());
        playing.extend((hold as u16).to_be_bytes());
    }
    correct_count(&mut playing, 0);
    playing
}

/// Writes the right count into a file or a playing, plus an error that wraps; one under 5 bytes has none.
pub fn correct_count(file: &mut [u8], error: u32) {
    if file.len() >= 5 {
        let count = (file.len() as u32 - 5).wrapping_add(error);
        file[1..5].copy_from_slice(&count.to_be_bytes());
    }
}

impl Draft {
    /// The draft of the file that a phrase would be written as, whatever rules it breaks; none if a field is too wide for
    /// its bytes, or a shift or rest other than 0 has none.
    pub fn of(phrase: &EditedPhrase) -> Option<Draft> {
        let layout = Layout::of(phrase.version.into());
        let bell_fits = |bell: &EditedBell| {
            let bytes = [bell.written, bell.transposition, bell.rank];
            let widest_rest = layout.map_or(u32::MAX, |layout| 65_535 * u32::from(layout.has_rest));
            fit_a_byte(&bytes) && bell.ca.max(bell.cb) <= 65_535 && bell.rest <= widest_rest
        };
        let note_fits = |note: &EditedNote| {
            // The file has the count as a part of the note's length.
            let longest = 255 - 13;
            note.wait_count <= longest && fit_a_byte(&[note.key]) && fit_a_byte(note.waits())
        };
        // No file of another version is read as far as its shift or its rests.
        let widest_shift = layout.map_or(u32::MAX, |layout| 255 * u32::from(layout.has_shift));
        let head = [phrase.version, phrase.drivers, phrase.bell_count];
        let fits = fit_a_byte(&head)
            && phrase.shift <= widest_shift
            && phrase.bells().iter().all(bell_fits)
            && fit_a_byte(&[phrase.note_count])
            && phrase.notes().iter().all(note_fits);
        fits.then(|| Draft::cut(phrase))
    }

    /// The same with every field cut to its bytes, counts too, or left out if it has none: what a careless writer would make
    /// of the phrase.
    pub fn cut(phrase: &EditedPhrase) -> Draft {
        let version = phrase.version as u8;
        let layout = Layout::of(version.into());
        let has_shift = layout.is_some_and(|layout| layout.has_shift);
        let has_rest = layout.is_some_and(|layout| layout.has_rest);
        let bells = phrase.bells.iter().map(|bell| cut_bell(bell, has_rest));
        let notes = phrase.notes.iter().map(cut_note);
        let (bell_count, stroke_count) = (phrase.bell_count as u8, phrase.note_count as u8);
        Draft {
            version,
            count_error: 0,
            drivers: phrase.drivers as u8,
            shift: has_shift.then_some(phrase.shift as i8),
            bell_count,
            bells: bells.take(bell_count.into()).collect(),
            stroke_count,
            notes: notes.take(stroke_count.into()).collect(),
            remaining: Vec::new(),
        }
    }
}

fn fit_a_byte(values: &[u32]) -> bool {
    values.iter().all(|&value| value <= 255)
}

fn cut_bell(bell: &EditedBell, has_rest: bool) -> DraftBell {
    DraftBell {
        written: bell.written as u8,
        transposition: bell.transposition as i8,
        ca: bell.ca as u16,
        cb: bell.cb as u16,
        rest: has_rest.then_some(bell.rest as u16),
        rank: bell.rank as u8,
    }
}

fn cut_note(note: &EditedNote) -> DraftNote {
    let length = (note.wait_count as u8).wrapping_add(13);
    let listed = usize::from(length.saturating_sub(13));
    DraftNote {
        length,
        key: note.key as u8,
        ra: note.ra,
        rb: note.rb,
        due: note.due,
        waits: (note.waits.iter().take(listed))
            .map(|&wait| wait as u8)
            .collect(),
    }
}

/// The phrase of a draft, with the counts that the draft has; zero in all rows that it does not have.
impl From<&Draft> for EditedPhrase {
    fn from(draft: &Draft) -> EditedPhrase {
        let mut phrase = EditedPhrase::zero();
        phrase.version = draft.version.into();
        phrase.drivers = draft.drivers.into();
        phrase.shift = draft.shift.map_or(0, |shift| u32::from(shift as u8));
        phrase.bell_count = draft.bell_count.into();
        phrase.note_count = draft.stroke_count.into();
        for (row, bell) in phrase.bells.iter_mut().zip(&draft.bells) {
            *row = bell.into();
        }
        for (row, note) in phrase.notes.iter_mut().zip(&draft.notes) {
            *row = note.into();
        }
        phrase
    }
}

impl From<&DraftBell> for EditedBell {
    fn from(bell: &DraftBell) -> EditedBell {
        EditedBell {
            written: bell.written.into(),
            transposition: u32::from(bell.transposition as u8),
            ca: bell.ca.into(),
            cb: bell.cb.into(),
            rest: bell.rest.unwrap_or(0).into(),
            rank: bell.rank.into(),
        }
    }
}

/// The waits say how many they are; the length byte is left out.
impl From<&DraftNote> for EditedNote {
    fn from(note: &DraftNote) -> EditedNote {
        let mut edited = EditedNote {
            key: note.key.into(),
            ra: note.ra,
            rb: note.rb,
            due: note.due,
            wait_count: note.waits.len() as u32,
            ..EditedNote::default()
        };
        for (row, &wait) in edited.waits.iter_mut().zip(&note.waits) {
            *row = wait.into();
        }
        edited
    }
}
