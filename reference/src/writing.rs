//! Writes a phrase as a file, or refuses it as the reader would refuse the file so written.

use crate::layout::{DRIVERS_AT, HEAD, Layout, SHIFT_AT};
use crate::reading::{
    Bell, HIGHEST_KEY, LATEST_TIME, LONGEST_HOLD, LONGEST_REST, LOWEST_KEY, MOST_BELLS,
    MOST_DRIVERS, MOST_STROKES, MOST_WAITS, NOTE_FIELDS, Phrase, Refusal, Stroke, WIDEST_SHIFT,
    WIDEST_TRANSPOSITION, refusal, require,
};

/// A note that lists nothing, its length byte included.
const NOTE_BYTES: usize = 1 + NOTE_FIELDS;

/// A bell as an editor holds it: any number in every field.
#[derive(Clone, Copy, Debug, Default, PartialEq, Eq)]
pub struct EditedBell {
    /// N
    pub written: u32,
    /// T, as the file's byte: 253 is -3.
    pub transposition: u32,
    pub ca: u32,
    pub cb: u32,
    /// 0 in a phrase of version 1 or 2, whose file has no bytes for it.
    pub rest: u32,
    /// p
    pub rank: u32,
}

/// A note as an editor holds it.
#[derive(Clone, Copy, Debug, Default)]
pub struct EditedNote {
    /// As written: with the shift, the key that a bell has to sound for.
    pub key: u32,
    pub ra: u32,
    pub rb: u32,
    /// d
    pub due: u32,
    pub wait_count: u32,
    /// What the note lists; from the count on, anything.
    pub waits: [u32; MOST_WAITS],
}

/// A phrase as an editor holds it. Counts may be beyond the rows there are; rows from a count on may hold anything.
#[derive(Clone, Debug)]
pub struct EditedPhrase {
    pub version: u32,
    /// m
    pub drivers: u32,
    /// As the file's byte: 253 is -3. 0 in a phrase of version 1, whose file has no such byte.
    pub shift: u32,
    pub bell_count: u32,
    /// K
    pub note_count: u32,
    pub bells: [EditedBell; MOST_BELLS as usize],
    pub notes: [EditedNote; MOST_STROKES],
}

impl EditedPhrase {
    /// Zero in every field and row.
    pub fn zero() -> EditedPhrase {
        EditedPhrase {
            version: 0,
            drivers: 0,
            shift: 0,
            bell_count: 0,
            note_count: 0,
            bells: [EditedBell::default(); MOST_BELLS as usize],
            notes: [EditedNote::default(); MOST_STROKES],
        }
    }

    /// The bells up to their count, or all rows.
    pub fn bells(&self) -> &[EditedBell] {
        up_to(&self.bells, self.bell_count)
    }

    /// The notes up to their count, or all rows.
    pub fn notes(&self) -> &[EditedNote] {
        up_to(&self.notes, self.note_count)
    }
}

impl EditedNote {
    /// The waits up to their count, or all rows.
    pub fn waits(&self) -> &[u32] {
        up_to(&self.waits, self.wait_count)
    }
}

fn up_to<T>(rows: &[T], count: u32) -> &[T] {
    &rows[..rows.len().min(count as usize)]
}

/// Up to the counts.
impl PartialEq for EditedPhrase {
    fn eq(&self, other: &EditedPhrase) -> bool {
        let head = |p: &EditedPhrase| [p.version, p.drivers, p.shift, p.bell_count, p.note_count];
        head(self) == head(other) && self.bells() == other.bells() && self.notes() == other.notes()
    }
}

/// Up to the count.
impl PartialEq for EditedNote {
    fn eq(&self, other: &EditedNote) -> bool {
        let fields = |n: &EditedNote| (n.key, n.ra, n.rb, n.due, n.wait_count);
        fields(self) == fields(other) && self.waits() == other.waits()
    }
}

/// What was read, for an editor; zero in all rows from the counts on.
impl From<&Phrase> for EditedPhrase {
    fn from(phrase: &Phrase) -> EditedPhrase {
        let mut edited = EditedPhrase::zero();
        edited.version = phrase.version as u32;
        edited.drivers = phrase.drivers as u32;
        edited.shift = u32::from(phrase.shift as u8);
        edited.bell_count = phrase.bells.len() as u32;
        edited.note_count = phrase.strokes.len() as u32;
        for (row, bell) in edited.bells.iter_mut().zip(&phrase.bells) {
            *row = bell.into();
        }
        for (row, stroke) in edited.notes.iter_mut().zip(&phrase.strokes) {
            *row = stroke.into();
        }
        edited
    }
}

impl From<&Bell> for EditedBell {
    fn from(bell: &Bell) -> EditedBell {
        EditedBell {
            written: bell.written.into(),
            transposition: u32::from(bell.transposition as u8),
            ca: bell.hold.low as u32,
            cb: bell.hold.high as u32,
            rest: bell.rest as u32,
            rank: bell.rank as u32,
        }
    }
}

impl From<&Stroke> for EditedNote {
    fn from(stroke: &Stroke) -> EditedNote {
        let mut note = EditedNote {
            key: stroke.written.into(),
            ra: stroke.call.low as u32,
            rb: stroke.call.high as u32,
            due: stroke.due as u32,
            ..EditedNote::default()
        };
        let listed = (stroke.waits.iter()).filter(|&&wait| stroke.added != Some(wait));
        for (row, &wait) in note.waits.iter_mut().zip(listed) {
            *row = wait as u32;
            note.wait_count += 1;
        }
        note
    }
}

/// The phrase's file, if it is no longer than `room`.
pub fn write(phrase: &EditedPhrase, room: usize) -> Result<Vec<u8>, Refusal> {
    let length = file_length(phrase)?;
    require(length <= room, 16, 0)?;
    let mut file = vec![0; length];
    put_phrase(phrase, &mut file);
    Ok(file)
}

/// Writes the phrase's file to the start of a lent buffer and gives its length; a refusal leaves the buffer as it was.
pub fn write_into(phrase: &EditedPhrase, buffer: &mut [u8]) -> Result<usize, Refusal> {
    let length = file_length(phrase)?;
    let file = buffer.get_mut(..length).ok_or(refusal(16, 0))?;
    put_phrase(phrase, file);
    Ok(length)
}

/// For each key up to the highest, whether a bell sounds for it.
type Sounding = [bool; HIGHEST_KEY as usize + 1];

/// The length of the phrase's file, or the refusal of the first field that breaks the file rules.
pub fn file_length(phrase: &EditedPhrase) -> Result<usize, Refusal> {
    let layout = layout(phrase).ok_or(refusal(1, 0))?;
    let drivers = u64::from(phrase.drivers);
    require((1..=MOST_DRIVERS).contains(&drivers), 4, DRIVERS_AT)?;
    let shift = semitones(phrase.shift, layout).ok_or(refusal(19, SHIFT_AT))?;
    let bell_count = u64::from(phrase.bell_count);
    require(
        (1..=MOST_BELLS).contains(&bell_count),
        5,
        layout.bell_count_at(),
    )?;

    let mut at = layout.bells_at();
    let mut sounding: Sounding = [false; HIGHEST_KEY as usize + 1];
    for bell in phrase.bells() {
        let key = sounding_key(bell, layout).ok_or(refusal(6, at))?;
        require(!sounding[key], 7, at)?;
        sounding[key] = true;
        at += layout.bell_bytes();
    }

    require(phrase.note_count as usize <= MOST_STROKES, 8, at)?;
    at += 1;
    for (number, note) in (0..).zip(phrase.notes()) {
        check_note(note, number, shift, &sounding).map_err(|broken| refusal(broken, at))?;
        at += NOTE_BYTES + note.waits().len();
    }
    Ok(at)
}

/// The layout of the file that the phrase asks for.
fn layout(phrase: &EditedPhrase) -> Option<Layout> {
    Layout::of(phrase.version.into())
}

/// The shift in semitones; none if it is out of range, or not 0 where the file has no byte for it.
fn semitones(shift: u32, layout: Layout) -> Option<i64> {
    let shift = i64::from(u8::try_from(shift).ok()? as i8);
    let widest = if layout.has_shift { WIDEST_SHIFT } else { 0 };
    (-widest..=widest).contains(&shift).then_some(shift)
}

/// The key that a bell sounds for; none if a field, or this key, is out of range, or the rest is not 0 where the file has no
/// bytes for it.
fn sounding_key(bell: &EditedBell, layout: Layout) -> Option<usize> {
    let transposition = i64::from(u8::try_from(bell.transposition).ok()? as i8);
    let written = i64::from(bell.written);
    let key = written + transposition;
    let keys = LOWEST_KEY..=HIGHEST_KEY;
    let longest_rest = if layout.has_rest { LONGEST_REST } else { 0 };
    let in_range = keys.contains(&written)
        && (-WIDEST_TRANSPOSITION..=WIDEST_TRANSPOSITION).contains(&transposition)
        && 1 <= bell.ca
        && bell.ca <= bell.cb
        && u64::from(bell.cb) <= LONGEST_HOLD
        && u64::from(bell.rest) <= longest_rest
        && bell.rank <= u32::from(u8::MAX)
        && keys.contains(&key);
    in_range.then_some(key as usize)
}

/// The number of the first rule that the note with this number breaks, as an error.
fn check_note(note: &EditedNote, number: u32, shift: i64, sounding: &Sounding) -> Result<(), u64> {
    if note.wait_count as usize > MOST_WAITS {
        return Err(9);
    }
    // Request #105: times before the key.
    let latest = note.rb.max(note.due);
    if note.ra > note.rb || u64::from(latest) > LATEST_TIME {
        return Err(11);
    }
    // A key too wide for a byte is beyond all bells, whatever the shift; the sum does not wrap.
    let key = usize::try_from(i64::from(note.key) + shift).ok();
    if key.and_then(|key| sounding.get(key)) != Some(&true) {
        return Err(10);
    }
    let waits = note.waits();
    let rising = waits.is_sorted_by(|a, b| a < b);
    // Where they rise, all are below the note's own number if the last is.
    if !rising || waits.last().is_some_and(|&last| last >= number) {
        return Err(12);
    }
    Ok(())
}

/// Writes every byte of the file of a phrase that breaks no rule, so that each field fits its bytes.
fn put_phrase(phrase: &EditedPhrase, file: &mut [u8]) {
    let layout = layout(phrase).expect("another version would break a rule");
    let count = (file.len() - HEAD) as u32;
    file[0] = phrase.version as u8;
    file[1..HEAD].copy_from_slice(&count.to_be_bytes());
    file[DRIVERS_AT] = phrase.drivers as u8;
    if layout.has_shift {
        file[SHIFT_AT] = phrase.shift as u8;
    }
    file[layout.bell_count_at()] = phrase.bell_count as u8;

    let bell_bytes = layout.bell_bytes();
    let all_bells = bell_bytes * phrase.bells().len();
    let (bells, after) = file[layout.bells_at()..].split_at_mut(all_bells);
    for (record, bell) in bells.chunks_exact_mut(bell_bytes).zip(phrase.bells()) {
        put_bell(bell, layout, record);
    }

    after[0] = phrase.note_count as u8;
    let mut notes = &mut after[1..];
    for note in phrase.notes() {
        let (record, after) = notes.split_at_mut(NOTE_BYTES + note.waits().len());
        put_note(note, record);
        notes = after;
    }
}

fn put_bell(bell: &EditedBell, layout: Layout, record: &mut [u8]) {
    record[0] = bell.written as u8;
    record[1] = bell.transposition as u8;
    record[2..4].copy_from_slice(&(bell.ca as u16).to_be_bytes());
    record[4..6].copy_from_slice(&(bell.cb as u16).to_be_bytes());
    let (rest, rank) = record[6..].split_at_mut(layout.bell_bytes() - 7);
    if layout.has_rest {
        rest.copy_from_slice(&(bell.rest as u16).to_be_bytes());
    }
    rank[0] = bell.rank as u8;
}

fn put_note(note: &EditedNote, record: &mut [u8]) {
    record[0] = (record.len() - 1) as u8;
    record[1] = note.key as u8;
    record[2..6].copy_from_slice(&note.ra.to_be_bytes());
    record[6..10].copy_from_slice(&note.rb.to_be_bytes());
    record[10..NOTE_BYTES].copy_from_slice(&note.due.to_be_bytes());
    for (byte, &wait) in record[NOTE_BYTES..].iter_mut().zip(note.waits()) {
        *byte = wait as u8;
    }
}
