//! Reads a phrase file: its bytes give a phrase or the first refusal, 1 to 12 or 19, with its place.

use crate::layout::{HEAD, Layout};
use crate::range::Range;

pub const MOST_DRIVERS: u64 = 8;
pub const MOST_BELLS: u64 = 96;
pub const MOST_STROKES: usize = 64;
pub const MOST_WAITS: usize = 4;
pub const LATEST_TIME: u64 = 3_600_000;
pub const LONGEST_HOLD: u64 = 5_000;
pub const LONGEST_REST: u64 = 5_000;
pub const LOWEST_KEY: i64 = 12;
pub const HIGHEST_KEY: i64 = 119;
pub const WIDEST_TRANSPOSITION: i64 = 24;
pub const WIDEST_SHIFT: i64 = 24;

/// Key, ra, rb and d; the waited-for numbers follow.
pub(crate) const NOTE_FIELDS: usize = 13;

#[derive(Clone, Copy, Debug, PartialEq, Eq)]
pub struct Refusal {
    pub number: u64,
    pub place: u64,
}

impl Refusal {
    /// What the host's calls return: the number above the place.
    pub fn host_number(self) -> u64 {
        self.number * 4_294_967_296 + self.place
    }
}

#[derive(Clone, Debug, PartialEq, Eq)]
pub struct Bell {
    /// N
    pub written: u8,
    /// T
    pub transposition: i8,
    /// The sounding key: written key plus transposition.
    pub key: i64,
    /// ca..cb
    pub hold: Range,
    /// From the end of a stroke to the start of the next one, at the least.
    pub rest: u64,
    /// p
    pub rank: u64,
}

#[derive(Clone, Debug, PartialEq, Eq)]
pub struct Stroke {
    /// The key as the note has it.
    pub written: u8,
    /// The key that sounds: written key plus shift.
    pub key: i64,
    pub bell: usize,
    /// ra..rb
    pub call: Range,
    /// ca..cb
    pub hold: Range,
    /// d
    pub due: u64,
    /// p
    pub rank: u64,
    /// The wait set, rising: the listed strokes and the nearest earlier one of the same bell.
    pub waits: Vec<usize>,
    /// The one of them that the note does not list: its bell adds it.
    pub added: Option<usize>,
    /// The nearest earlier stroke of the same bell, listed or not.
    pub nearest: Option<usize>,
    /// The bell's, which counts after that stroke alone.
    pub rest: u64,
}

impl Stroke {
    /// How long a wait must have been done before this stroke is ready.
    pub fn rest_after(&self, wait: usize) -> u64 {
        if self.nearest == Some(wait) {
            self.rest
        } else {
            0
        }
    }
}

#[derive(Clone, Debug, PartialEq, Eq)]
pub struct Phrase {
    pub version: u64,
    /// m
    pub drivers: usize,
    /// What is added to the key of every note.
    pub shift: i64,
    pub bells: Vec<Bell>,
    /// K of them, in file order.
    pub strokes: Vec<Stroke>,
}

impl Phrase {
    /// Whether stroke `j` goes before stroke `i`: smaller rank, then smaller number.
    pub fn goes_before(&self, j: usize, i: usize) -> bool {
        (self.strokes[j].rank, j) < (self.strokes[i].rank, i)
    }
}

pub(crate) fn refusal(number: u64, place: usize) -> Refusal {
    Refusal {
        number,
        place: place as u64,
    }
}

pub(crate) fn require(met: bool, number: u64, place: usize) -> Result<(), Refusal> {
    if met {
        Ok(())
    } else {
        Err(refusal(number, place))
    }
}

pub(crate) fn big_endian(bytes: &[u8]) -> u64 {
    bytes
        .iter()
        .fold(0, |value, &byte| value << 8 | u64::from(byte))
}

/// The `length` bytes from `first` on, or 3 at `first` when they pass the end.
fn bytes_at(file: &[u8], first: usize, length: usize) -> Result<&[u8], Refusal> {
    file.get(first..first + length).ok_or(refusal(3, first))
}

pub fn read(file: &[u8]) -> Result<Phrase, Refusal> {
    let version = u64::from(*file.first().ok_or(refusal(2, 0))?);
    let layout = Layout::of(version).ok_or(refusal(1, 0))?;
    require(file.len() >= HEAD, 2, 0)?;
    require(
        big_endian(&file[1..HEAD]) == (file.len() - HEAD) as u64,
        2,
        0,
    )?;

    let mut at = HEAD;
    let drivers = big_endian(bytes_at(file, at, 1)?);
    require((1..=MOST_DRIVERS).contains(&drivers), 4, at)?;
    at += 1;

    let mut shift = 0;
    if layout.has_shift {
        shift = read_shift(file, at)?;
        at += 1;
    }

    let bell_count = big_endian(bytes_at(file, at, 1)?);
    require((1..=MOST_BELLS).contains(&bell_count), 5, at)?;
    at += 1;

    let mut bells: Vec<Bell> = Vec::new();
    for _ in 0..bell_count {
        let bell = read_bell(file, at, layout)?;
        require(bells.iter().all(|b| b.key != bell.key), 7, at)?;
        bells.push(bell);
        at += layout.bell_bytes();
    }

    let stroke_count = big_endian(bytes_at(file, at, 1)?);
    require(stroke_count <= MOST_STROKES as u64, 8, at)?;
    at += 1;

    let mut strokes = Vec::new();
    for _ in 0..stroke_count {
        let (stroke, length) = read_note(file, at, shift, &bells, &strokes)?;
        strokes.push(stroke);
        at += length;
    }
    require(at == file.len(), 3, at)?;

    Ok(Phrase {
        version,
        drivers: drivers as usize,
        shift,
        bells,
        strokes,
    })
}

fn read_shift(file: &[u8], at: usize) -> Result<i64, Refusal> {
    let shift = i64::from(bytes_at(file, at, 1)?[0] as i8);
    require((-WIDEST_SHIFT..=WIDEST_SHIFT).contains(&shift), 19, at)?;
    Ok(shift)
}

fn read_bell(file: &[u8], first: usize, layout: Layout) -> Result<Bell, Refusal> {
    let record = bytes_at(file, first, layout.bell_bytes())?;
    let written = i64::from(record[0]);
    let transposition = i64::from(record[1] as i8);
    let key = written + transposition;
    let hold = Range::new(big_endian(&record[2..4]), big_endian(&record[4..6]));
    let (rest, rank) = record[6..].split_at(record.len() - 7);
    // Of no bytes it is 0.
    let rest = big_endian(rest);
    let keys = LOWEST_KEY..=HIGHEST_KEY;
    let in_range = keys.contains(&written)
        && (-WIDEST_TRANSPOSITION..=WIDEST_TRANSPOSITION).contains(&transposition)
        && 1 <= hold.low
        && hold.low <= hold.high
        && hold.high <= LONGEST_HOLD
        && rest <= LONGEST_REST
        && keys.contains(&key);
    require(in_range, 6, first)?;
    Ok(Bell {
        written: record[0],
        transposition: record[1] as i8,
        key,
        hold,
        rest,
        rank: big_endian(rank),
    })
}

/// The stroke of the note whose length byte stands at `first`, and the record's whole length.
fn read_note(
    file: &[u8],
    first: usize,
    shift: i64,
    bells: &[Bell],
    earlier: &[Stroke],
) -> Result<(Stroke, usize), Refusal> {
    let record = note_record(file, first)?;

    // Request #105: times before the key, although they stand after it.
    let (call, due) = read_times(record).ok_or(refusal(11, first))?;

    // Bells sound for 12 to 119 only, so a sum below or above finds none.
    let key = i64::from(record[0]) + shift;
    let Some(bell) = bells.iter().position(|b| b.key == key) else {
        return Err(refusal(10, first));
    };

    let mut waits = read_waits(record, earlier.len()).ok_or(refusal(12, first))?;
    let nearest = earlier.iter().rposition(|s| s.bell == bell);
    let added = nearest.filter(|number| !waits.contains(number));
    waits.extend(added);
    waits.sort_unstable();

    let stroke = Stroke {
        written: record[0],
        key,
        bell,
        call,
        hold: bells[bell].hold,
        due,
        rank: bells[bell].rank,
        waits,
        added,
        nearest,
        rest: bells[bell].rest,
    };
    Ok((stroke, 1 + record.len()))
}

/// The note whose length byte stands at `first`, without that byte.
fn note_record(file: &[u8], first: usize) -> Result<&[u8], Refusal> {
    let length = big_endian(bytes_at(file, first, 1)?) as usize;
    let lengths = NOTE_FIELDS..=NOTE_FIELDS + MOST_WAITS;
    require(lengths.contains(&length), 9, first)?;
    Ok(&bytes_at(file, first, 1 + length)?[1..])
}

/// The call range and the due time of such a record; none if they are wrong.
fn read_times(record: &[u8]) -> Option<(Range, u64)> {
    let call = Range::new(big_endian(&record[1..5]), big_endian(&record[5..9]));
    let due = big_endian(&record[9..NOTE_FIELDS]);
    let right = call.low <= call.high && call.high <= LATEST_TIME && due <= LATEST_TIME;
    right.then_some((call, due))
}

/// What such a record lists; none if it does not rise, or is not all below the note's own number.
fn read_waits(record: &[u8], own_number: usize) -> Option<Vec<usize>> {
    let listed = record[NOTE_FIELDS..].iter();
    let listed: Vec<usize> = listed.map(|&number| usize::from(number)).collect();
    let rising = listed.windows(2).all(|pair| pair[0] < pair[1]);
    let below_own = listed.iter().all(|&number| number < own_number);
    (rising && below_own).then_some(listed)
}
