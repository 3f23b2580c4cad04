//! The product's C calls, from the static library that build.rs names, and the header's structs.

use std::array;

use crate::reading::{MOST_BELLS, MOST_STROKES, MOST_WAITS, Phrase};
use crate::writing::{EditedBell, EditedNote, EditedPhrase};

/// The header's struct phrase_bell.
#[repr(C)]
#[derive(Clone, Copy, Debug, PartialEq, Eq)]
pub struct HostBell {
    pub key: u32,
    pub transposition: u32,
    pub least_hold: u32,
    pub most_hold: u32,
    pub rank: u32,
    /// 0 in versions 1 and 2.
    pub rest: u32,
    /// Derived.
    pub sounding: u32,
}

/// The header's struct phrase_note.
#[repr(C)]
#[derive(Clone, Copy, Debug, PartialEq, Eq)]
pub struct HostNote {
    pub key: u32,
    pub earliest_call: u32,
    pub latest_call: u32,
    pub due: u32,
    pub wait_count: u32,
    pub waits: [u32; MOST_WAITS],
    /// Derived.
    pub bell: u32,
}

/// The header's struct phrase. Equal means equal in every word.
#[repr(C)]
#[derive(Clone, Debug, PartialEq, Eq)]
pub struct HostPhrase {
    pub version: u32,
    pub drivers: u32,
    pub bell_count: u32,
    pub note_count: u32,
    pub shift: u32,
    pub bells: [HostBell; MOST_BELLS as usize],
    pub notes: [HostNote; MOST_STROKES],
}

// Words alone, with no gaps between them, as the header has it.
const _: () = assert!(size_of::<HostPhrase>() == 5_268 && align_of::<HostPhrase>() == 4);

impl HostPhrase {
    /// Every word from `content`.
    pub fn filled(mut content: impl FnMut() -> u32) -> HostPhrase {
        let content = &mut content;
        HostPhrase {
            version: content(),
            drivers: content(),
            bell_count: content(),
            note_count: content(),
            shift: content(),
            bells: array::from_fn(|_| HostBell::filled(content)),
            notes: array::from_fn(|_| HostNote::filled(content)),
        }
    }

    pub fn zero() -> HostPhrase {
        HostPhrase::filled(|| 0)
    }

    /// A phrase to write, with all its rows; what is derived comes from `content`.
    pub fn of(phrase: &EditedPhrase, content: impl FnMut() -> u32) -> HostPhrase {
        let mut host = HostPhrase::filled(content);
        host.version = phrase.version;
        host.drivers = phrase.drivers;
        host.bell_count = phrase.bell_count;
        host.note_count = phrase.note_count;
        host.shift = phrase.shift;
        for (row, bell) in host.bells.iter_mut().zip(&phrase.bells) {
            row.set(bell);
        }
        for (row, note) in host.notes.iter_mut().zip(&phrase.notes) {
            row.set(note);
        }
        host
    }

    /// Without what is derived.
    pub fn edited(&self) -> EditedPhrase {
        EditedPhrase {
            version: self.version,
            drivers: self.drivers,
            shift: self.shift,
            bell_count: self.bell_count,
            note_count: self.note_count,
            bells: array::from_fn(|number| self.bells[number].edited()),
            notes: array::from_fn(|number| self.notes[number].edited()),
        }
    }
}

/// What reading has to give: what is derived from the file too, and zero in all other words.
impl From<&Phrase> for HostPhrase {
    fn from(phrase: &Phrase) -> HostPhrase {
        let mut host = HostPhrase::of(&phrase.into(), || 0);
        for (row, bell) in host.bells.iter_mut().zip(&phrase.bells) {
            row.sounding = bell.key as u32;
        }
        for (row, stroke) in host.notes.iter_mut().zip(&phrase.strokes) {
            row.bell = stroke.bell as u32;
        }
        host
    }
}

impl HostBell {
    fn filled(content: &mut impl FnMut() -> u32) -> HostBell {
        HostBell {
            key: content(),
            transposition: content(),
            least_hold: content(),
            most_hold: content(),
            rank: content(),
            rest: content(),
            sounding: content(),
        }
    }

    fn set(&mut self, bell: &EditedBell) {
        self.key = bell.written;
        self.transposition = bell.transposition;
        self.least_hold = bell.ca;
        self.most_hold = bell.cb;
        self.rank = bell.rank;
        self.rest = bell.rest;
    }

    fn edited(&self) -> EditedBell {
        EditedBell {
            written: self.key,
            transposition: self.transposition,
            ca: self.least_hold,
            cb: self.most_hold,
            rest: self.rest,
            rank: self.rank,
        }
    }
}

impl HostNote {
    fn filled(content: &mut impl FnMut() -> u32) -> HostNote {
        HostNote {
            key: content(),
            earliest_call: content(),
            latest_call: content(),
            due: content(),
            wait_count: content(),
            waits: array::from_fn(|_| content()),
            bell: content(),
        }
    }

    fn set(&mut self, note: &EditedNote) {
        self.key = note.key;
        self.earliest_call = note.ra;
        self.latest_call = note.rb;
        self.due = note.due;
        self.wait_count = note.wait_count;
        self.waits = note.waits;
    }

    fn edited(&self) -> EditedNote {
        EditedNote {
            key: self.key,
            ra: self.earliest_call,
            rb: self.latest_call,
            due: self.due,
            wait_count: self.wait_count,
            waits: self.waits,
        }
    }
}

mod calls {
    use super::HostPhrase;

    unsafe extern "C" {
        pub fn phrase_check(file: *const u8, file_len: usize) -> u64;
        pub fn phrase_report(
            file: *const u8,
            file_len: usize,
            text: *mut u8,
            text_len: usize,
        ) -> usize;
        pub fn phrase_check_with(
            file: *const u8,
            file_len: usize,
            table: *mut u32,
            table_len: usize,
        ) -> u64;
        pub fn phrase_report_with(
            file: *const u8,
            file_len: usize,
            table: *mut u32,
            table_len: usize,
            text: *mut u8,
            text_len: usize,
        ) -> usize;
        pub fn phrase_read(file: *const u8, file_len: usize, phrase: *mut HostPhrase) -> u64;
        pub fn phrase_write(phrase: *const HostPhrase, file: *mut u8, file_len: usize) -> u64;
        pub fn phrase_play(
            file: *const u8,
            file_len: usize,
            playing: *const u8,
            playing_len: usize,
            starts: *mut u32,
            ends: *mut u32,
        ) -> u64;
    }
}

/// The host's check, with the library's own table.
pub fn phrase_check(file: &[u8]) -> u64 {
    // SAFETY: the pointer and length are those of a live slice, which the call only reads.
    unsafe { calls::phrase_check(file.as_ptr(), file.len()) }
}

/// The host's report, with the library's own table.
pub fn phrase_report(file: &[u8], text: &mut [u8]) -> usize {
    // SAFETY: both pairs are those of live slices; the text is lent mutably.
    unsafe { calls::phrase_report(file.as_ptr(), file.len(), text.as_mut_ptr(), text.len()) }
}

/// The check in a lent table.
pub fn phrase_check_with(file: &[u8], table: &mut [u32]) -> u64 {
    // SAFETY: both pairs are those of live slices; the table is lent mutably.
    unsafe { calls::phrase_check_with(file.as_ptr(), file.len(), table.as_mut_ptr(), table.len()) }
}

/// The report in a lent table.
pub fn phrase_report_with(file: &[u8], table: &mut [u32], text: &mut [u8]) -> usize {
    // SAFETY: all three pairs are those of live slices; table and text are lent mutably.
    unsafe {
        calls::phrase_report_with(
            file.as_ptr(),
            file.len(),
            table.as_mut_ptr(),
            table.len(),
            text.as_mut_ptr(),
            text.len(),
        )
    }
}

/// Reads a file into a lent phrase.
pub fn phrase_read(file: &[u8], phrase: &mut HostPhrase) -> u64 {
    // SAFETY: the pair is that of a live slice, which the call only reads; the phrase is laid out as in C and lent
    // mutably, and any words make one.
    unsafe { calls::phrase_read(file.as_ptr(), file.len(), phrase) }
}

/// Writes a phrase to a lent buffer. The call may only read the phrase; it is lent mutably so that nothing takes for
/// granted what a comparison is to find out, that it is unchanged.
pub fn phrase_write(phrase: &mut HostPhrase, file: &mut [u8]) -> u64 {
    // SAFETY: the phrase is live and laid out as in C; the pair is that of a live slice, lent mutably.
    unsafe { calls::phrase_write(phrase, file.as_mut_ptr(), file.len()) }
}

/// Works a playing out into lent starts and ends.
pub fn phrase_play(
    file: &[u8],
    playing: &[u8],
    starts: &mut [u32; MOST_STROKES],
    ends: &mut [u32; MOST_STROKES],
) -> u64 {
    // SAFETY: both pairs are those of live slices, which the call only reads; both arrays have the words that the call
    // states, and are lent mutably.
    unsafe {
        calls::phrase_play(
            file.as_ptr(),
            file.len(),
            playing.as_ptr(),
            playing.len(),
            starts.as_mut_ptr(),
            ends.as_mut_ptr(),
        )
    }
}
