//! The phrases that document 01 names, and some made for one question.

use crate::draft::{Draft, DraftBell, DraftNote, correct_count};

/// Phrase P, as document 01 prints it.
pub const P: [u8; 50] = [
    0x01, 0x00, 0x00, 0x00, 0x2D, 0x01, 0x02, //
    0x3C, 0x00, 0x00, 0x02, 0x00, 0x02, 0x01, //
    0x3E, 0x0C, 0x00, 0x04, 0x00, 0x04, 0x02, //
    0x02, //
    0x0D, 0x3C, 0x00, 0x00, 0x00, 0x00, 0x00, 0x00, 0x00, 0x05, 0x00, 0x00, 0x00, 0x07, //
    0x0D, 0x4A, 0x00, 0x00, 0x00, 0x00, 0x00, 0x00, 0x00, 0x00, 0x00, 0x00, 0x00, 0x06,
];

pub const P_REPORT: &str = "\
stroke 0 key C4 bell 0 ends 2..7 response 2..7 due 7
stroke 1 key D5 bell 1 ends 4..6 response 4..6 due 6
bell 0 strokes 1 hold 2
bell 1 strokes 1 hold 4
accepted strokes 2 states 4 hold 6
";

/// P with one byte changed.
pub fn p_with(place: usize, byte: u8) -> Vec<u8> {
    let mut file = P.to_vec();
    file[place] = byte;
    file
}

/// P, count 2E, note 1 as `0E` .. with `01` added.
pub fn p_waiting_for_itself() -> Vec<u8> {
    let mut file = p_with(4, 0x2E);
    file[36] = 0x0E;
    file.push(0x01);
    file
}

/// P in version 2, its two keys written three semitones higher and the shift -3: the same bells are struck.
pub const P_SHIFTED: [u8; 51] = [
    0x02, 0x00, 0x00, 0x00, 0x2E, 0x01, 0xFD, 0x02, //
    0x3C, 0x00, 0x00, 0x02, 0x00, 0x02, 0x01, //
    0x3E, 0x0C, 0x00, 0x04, 0x00, 0x04, 0x02, //
    0x02, //
    0x0D, 0x3F, 0x00, 0x00, 0x00, 0x00, 0x00, 0x00, 0x00, 0x05, 0x00, 0x00, 0x00, 0x07, //
    0x0D, 0x4D, 0x00, 0x00, 0x00, 0x00, 0x00, 0x00, 0x00, 0x00, 0x00, 0x00, 0x00, 0x06,
];

/// The same with one byte changed.
pub fn p_shifted_with(place: usize, byte: u8) -> Vec<u8> {
    let mut file = P_SHIFTED.to_vec();
    file[place] = byte;
    file
}

/// P in version 2 on a lower instrument: its keys as P has them, the shift -3, and both bells three semitones lower.
pub fn p_lower() -> Vec<u8> {
    let mut file = p_shifted_with(24, 0x3C);
    file[38] = 0x4A;
    file[8] = 0x39;
    file[16] = 0x09;
    file
}

pub const P_LOWER_REPORT: &str = "\
stroke 0 key A3 bell 0 ends 2..7 response 2..7 due 7
stroke 1 key B4 bell 1 ends 4..6 response 4..6 due 6
bell 0 strokes 1 hold 2
bell 1 strokes 1 hold 4
accepted strokes 2 states 4 hold 6
";

/// A phrase of version 2 with this shift and one note of this key, at 23. Bell 0 sounds for 12 and bell 1 for 119, the lowest
/// and the highest key that a bell can sound for.
pub fn outermost_bells(key: u8, shift: i8) -> Vec<u8> {
    let bell = |written| DraftBell {
        written,
        transposition: 0,
        ca: 1,
        cb: 1,
        rest: None,
        rank: 0,
    };
    let notes = vec![DraftNote::new(key, 0, 0, 3_600_000, vec![])];
    let mut draft = Draft::new(1, vec![bell(12), bell(119)], notes);
    (draft.version, draft.shift) = (2, Some(shift));
    draft.bytes()
}

/// Files that are refused by their version, or in version 2: each with the number and the place.
pub fn refused_of_version_2() -> Vec<(Vec<u8>, u64, u64)> {
    let mut waiting_for_itself = p_shifted_with(4, 0x2F);
    waiting_for_itself[37] = 0x0E;
    waiting_for_itself.push(0x01);
    vec![
        (vec![0x04], 1, 0),
        (p_shifted_with(0, 0x04), 1, 0),
        (vec![0x02, 0, 0], 2, 0),
        (p_shifted_with(4, 0x2D), 2, 0),
        (vec![0x02, 0, 0, 0, 0], 3, 5),
        (vec![0x02, 0, 0, 0, 1, 0x00], 4, 5),
        (vec![0x02, 0, 0, 0, 1, 0x01], 3, 6),
        // 4 before 19, and 19 before all about the bell count.
        (vec![0x02, 0, 0, 0, 2, 0x00, 0x19], 4, 5),
        (vec![0x02, 0, 0, 0, 2, 0x01, 0x19], 19, 6),
        (vec![0x02, 0, 0, 0, 3, 0x01, 0xE7, 0x00], 19, 6),
        (p_shifted_with(6, 0x19), 19, 6),
        (p_shifted_with(6, 0xE7), 19, 6),
        (vec![0x02, 0, 0, 0, 2, 0x01, 0x18], 3, 7),
        (vec![0x02, 0, 0, 0, 3, 0x01, 0x18, 0x00], 5, 7),
        (p_shifted_with(7, 0x61), 5, 7),
        (p_shifted_with(8, 0x0B), 6, 8),
        (p_shifted_with(16, 0xFE), 7, 15),
        (p_shifted_with(22, 0x41), 8, 22),
        (p_shifted_with(23, 0x0C), 9, 23),
        // With another shift, and with a key that finds its bell only without the shift.
        (p_shifted_with(6, 0x00), 10, 23),
        (p_shifted_with(38, 0x4A), 10, 37),
        // 11 and 120, for which no bell sounds; -12; 268, whose low byte is 12.
        (outermost_bells(12, -1), 10, 23),
        (outermost_bells(119, 1), 10, 23),
        (outermost_bells(0, -12), 10, 23),
        (outermost_bells(244, 24), 10, 23),
        (p_shifted_with(28, 0x06), 11, 23),
        (waiting_for_itself, 12, 37),
        (p_shifted_with(22, 0x01), 3, 37),
        // The version of one file, and all that follows of the other: a shift of 2 and 60 bells, and 253 bells.
        (p_with(0, 0x02), 6, 8),
        (p_shifted_with(0, 0x01), 5, 6),
    ]
}

/// P in version 3, written with the shift -3 as well; bell 0 has the longest rest, bell 1 none. Each is struck once, and so
/// the rests have no effect.
pub const P_RESTED: [u8; 55] = [
    0x03, 0x00, 0x00, 0x00, 0x32, 0x01, 0xFD, 0x02, //
    0x3C, 0x00, 0x00, 0x02, 0x00, 0x02, 0x13, 0x88, 0x01, //
    0x3E, 0x0C, 0x00, 0x04, 0x00, 0x04, 0x00, 0x00, 0x02, //
    0x02, //
    0x0D, 0x3F, 0x00, 0x00, 0x00, 0x00, 0x00, 0x00, 0x00, 0x05, 0x00, 0x00, 0x00, 0x07, //
    0x0D, 0x4D, 0x00, 0x00, 0x00, 0x00, 0x00, 0x00, 0x00, 0x00, 0x00, 0x00, 0x00, 0x06,
];

/// The same with some bytes changed.
pub fn p_rested_with(changes: &[(usize, u8)]) -> Vec<u8> {
    let mut file = P_RESTED.to_vec();
    for &(place, byte) in changes {
        file[place] = byte;
    }
    file
}

/// Files that are refused in version 3, or one of its bodies after the head of another version: each with the number and the
/// place.
pub fn refused_of_version_3() -> Vec<(Vec<u8>, u64, u64)> {
    let mut all = heads_refused_of_version_3();
    all.extend(bodies_refused_of_version_3());
    // Cut anywhere in the second bell, before, in and after its rest.
    for length in 17..26 {
        let mut cut = P_RESTED[..length].to_vec();
        correct_count(&mut cut, 0);
        all.push((cut, 3, 17));
    }
    all
}

fn heads_refused_of_version_3() -> Vec<(Vec<u8>, u64, u64)> {
    let p = |place, byte| p_rested_with(&[(place, byte)]);
    vec![
        (p(0, 0x00), 1, 0),
        (p(0, 0x04), 1, 0),
        (vec![0x03], 2, 0),
        (vec![0x03, 0, 0], 2, 0),
        (p(4, 0x31), 2, 0),
        (vec![0x03, 0, 0, 0, 0], 3, 5),
        (vec![0x03, 0, 0, 0, 1, 0x00], 4, 5),
        (vec![0x03, 0, 0, 0, 1, 0x01], 3, 6),
        (vec![0x03, 0, 0, 0, 2, 0x00, 0x19], 4, 5),
        (vec![0x03, 0, 0, 0, 2, 0x01, 0x19], 19, 6),
        (vec![0x03, 0, 0, 0, 2, 0x01, 0x18], 3, 7),
        (vec![0x03, 0, 0, 0, 3, 0x01, 0xE8, 0x00], 5, 7),
        (p(6, 0xE7), 19, 6),
        (p(7, 0x61), 5, 7),
        // Version 2 takes the first byte of a rest for p, and the second for the next bell's N; version 1 the shift for a bell
        // count.
        (p(0, 0x02), 6, 15),
        (p(0, 0x01), 5, 6),
        // Version 3 takes what follows a shorter bell for its rest and p: 318 and 12, and then N is 0.
        (p_shifted_with(0, 0x03), 6, 17),
        (p_with(0, 0x03), 6, 8),
    ]
}

fn bodies_refused_of_version_3() -> Vec<(Vec<u8>, u64, u64)> {
    let p = |place, byte| p_rested_with(&[(place, byte)]);
    let mut waiting_for_itself = p_rested_with(&[(4, 0x33), (41, 0x0E)]);
    waiting_for_itself.push(0x01);
    vec![
        (p(8, 0x0B), 6, 8),
        // Rests of 5001, 5256, 65416, 5120 and 32768.
        (p(15, 0x89), 6, 8),
        (p(14, 0x14), 6, 8),
        (p(14, 0xFF), 6, 8),
        (p(23, 0x14), 6, 17),
        (p(23, 0x80), 6, 17),
        (p(18, 0xFE), 7, 17),
        // 6 of a bell whose key is doubled too, before its 7; and 6 of the earlier bell before 7 of the later.
        (p_rested_with(&[(18, 0xFE), (23, 0x14)]), 6, 17),
        (p_rested_with(&[(15, 0x89), (18, 0xFE)]), 6, 8),
        (p(26, 0x41), 8, 26),
        (p(27, 0x0C), 9, 27),
        (p(6, 0x00), 10, 27),
        (p(42, 0x4A), 10, 41),
        (p(32, 0x06), 11, 27),
        (waiting_for_itself, 12, 41),
        (p(26, 0x01), 3, 41),
    ]
}

/// A bell of a phrase with rests: ca, cb, rest and p; the first sounds for C0, the next for C#0, and so on.
pub type RestedBell = (u16, u16, u16, u8);
/// A stroke of it: its bell, ra, rb, d and listed waits.
pub type RestedStroke<'a> = (u8, u32, u32, u32, &'a [u8]);

/// A draft of version 3 with shift 0.
pub fn rested(drivers: u8, bells: &[RestedBell], strokes: &[RestedStroke]) -> Draft {
    let bells = (12..)
        .zip(bells)
        .map(|(written, &(ca, cb, rest, rank))| DraftBell {
            written,
            transposition: 0,
            ca,
            cb,
            rest: Some(rest),
            rank,
        });
    let notes = strokes
        .iter()
        .map(|&(bell, ra, rb, due, waits)| DraftNote::new(12 + bell, ra, rb, due, waits.to_vec()));
    let mut draft = Draft::new(drivers, bells.collect(), notes.collect());
    (draft.version, draft.shift) = (3, Some(0));
    draft
}

/// A phrase with rests, and what was worked out by hand for it: the ends of its strokes and the states stored.
pub struct RestedExample {
    pub name: &'static str,
    pub draft: Draft,
    pub ends: Vec<(u64, u64)>,
    pub states: u64,
}

impl RestedExample {
    fn new(name: &'static str, draft: Draft, ends: &[(u64, u64)], states: u64) -> RestedExample {
        RestedExample {
            name,
            draft,
            ends: ends.to_vec(),
            states,
        }
    }
}

/// Phrases with rests that are accepted, each for one question; dues are 3600000 or the latest ends.
pub fn rested_examples() -> Vec<RestedExample> {
    let mut all = resting_examples();
    all.extend(unrested_examples());
    all.extend(shared_examples());
    all
}

const NO_DUE: u32 = 3_600_000;

/// Stroke 1 strikes the bell of stroke 0; stroke 2 strikes another.
const IN_BETWEEN: [RestedStroke; 3] = [
    (0, 0, 0, NO_DUE, &[]),
    (0, 0, 0, NO_DUE, &[]),
    (1, 0, 0, NO_DUE, &[]),
];

/// All three strike one bell, and the last lists the first.
const THREE: [RestedStroke; 3] = [
    (0, 0, 0, NO_DUE, &[]),
    (0, 0, 0, NO_DUE, &[]),
    (0, 0, 0, NO_DUE, &[0]),
];

fn resting_examples() -> Vec<RestedExample> {
    let twice = |waits| {
        let strokes: [RestedStroke; 2] = [(0, 0, 0, 2, &[]), (0, 0, 0, 7, waits)];
        rested(1, &[(2, 2, 3, 1)], &strokes)
    };
    vec![
        // 0 ends at 2, and with a rest of 3 its bell is ready at 5.
        RestedExample::new(
            "a rest delays the next stroke",
            twice(&[]),
            &[(2, 2), (7, 7)],
            3,
        ),
        RestedExample::new(
            "a predecessor that is listed too",
            twice(&[0]),
            &[(2, 2), (7, 7)],
            3,
        ),
        // Stroke 1 goes before stroke 2, but at 2, when the driver is free, its bell still rests. After stroke 2 has ended at 6
        // it has rested long enough.
        RestedExample::new(
            "a lesser stroke goes in between",
            rested(1, &[(2, 2, 3, 1), (4, 4, 0, 2)], &IN_BETWEEN),
            &[(2, 2), (8, 8), (6, 6)],
            4,
        ),
    ]
}

/// Where a rest is not added to a wait, or counts for nothing.
fn unrested_examples() -> Vec<RestedExample> {
    let once: [RestedStroke; 2] = [(0, 0, 0, NO_DUE, &[]), (1, 0, 0, NO_DUE, &[0])];
    vec![
        // Stroke 2 rests after stroke 1 alone: 0 ends at 1, 1 starts at 11 and ends at 12, 2 starts at 22.
        RestedExample::new(
            "a listed stroke of the bell that is not the nearest",
            rested(2, &[(1, 1, 10, 1)], &THREE),
            &[(1, 1), (12, 12), (23, 23)],
            4,
        ),
        // Two bells that are struck once: neither their own rests nor those of each other delay them.
        RestedExample::new(
            "rests of bells that are struck once",
            rested(2, &[(1, 2, 5_000, 1), (3, 3, 5_000, 2)], &once),
            &[(1, 2), (4, 5)],
            3,
        ),
    ]
}

/// Stroke 1 strikes the bell of stroke 0; stroke 2 strikes another and lists stroke 0.
const LISTED_LAST: [RestedStroke; 3] = [
    (0, 0, 0, NO_DUE, &[]),
    (0, 0, 0, NO_DUE, &[]),
    (1, 0, 0, NO_DUE, &[0]),
];

/// Stroke 2 strikes the bell of stroke 0; stroke 1 strikes another and lists stroke 0.
const LISTED_BEFORE: [RestedStroke; 3] = [
    (0, 0, 0, NO_DUE, &[]),
    (1, 0, 0, NO_DUE, &[0]),
    (0, 0, 0, NO_DUE, &[]),
];

/// Both other strokes wait for stroke 0, and stroke 1 goes before stroke 2.
fn shared_examples() -> Vec<RestedExample> {
    vec![
        // After stroke 0, which ends at 2..4: stroke 1 is ready at 7..9, stroke 2 at 2..4, and twc is 4. For stroke 1 the wait
        // has the rest 5, for stroke 2 none: it counts, thigh is 9, and stroke 2 starts at 2..4. Then stroke 1 starts at 7..9.
        RestedExample::new(
            "a shared wait that rests longer for the one before",
            rested(1, &[(2, 4, 5, 1), (3, 3, 0, 2)], &LISTED_LAST),
            &[(2, 4), (9, 13), (5, 7)],
            4,
        ),
        // The same with no rest: 0 and 0, so the wait is left out, thigh is 0, and stroke 1 goes first.
        RestedExample::new(
            "a shared wait without a rest",
            rested(1, &[(2, 4, 0, 1), (3, 3, 0, 2)], &LISTED_LAST),
            &[(2, 4), (4, 8), (7, 11)],
            4,
        ),
        // After stroke 0, which ends at 2..12: stroke 1 is ready at 2..12, stroke 2 at 7..17, and twc is 12. For stroke 2 the
        // wait has the rest 5, for stroke 1 none: it is left out, thigh is 0, and stroke 2 cannot go next. With it, thigh would
        // be 12, and there would be one more state.
        RestedExample::new(
            "a shared wait that rests shorter for the one before",
            rested(1, &[(2, 12, 5, 2), (3, 3, 0, 1)], &LISTED_BEFORE),
            &[(2, 12), (5, 15), (9, 29)],
            4,
        ),
    ]
}

/// The first of these examples with stroke 1 due one millisecond before its end: 14 at stroke 1, which ends at 7.
pub fn late_by_a_rest() -> Vec<u8> {
    let strokes: [RestedStroke; 2] = [(0, 0, 0, 2, &[]), (0, 0, 0, 6, &[])];
    rested(1, &[(2, 2, 3, 1)], &strokes).bytes()
}

/// A stroke as the marked phrases write it: ra, rb, ca, cb, p and listed waits.
pub type Marked<'a> = (u32, u32, u16, u16, u8, &'a [u8]);

/// A phrase of such strokes, each on a bell of its own, dues 3600000.
pub fn marked(drivers: u8, strokes: &[Marked]) -> Vec<u8> {
    let mut bells = Vec::new();
    let mut notes = Vec::new();
    for (key, &(ra, rb, ca, cb, rank, waits)) in (12..).zip(strokes) {
        bells.push(DraftBell {
            written: key,
            transposition: 0,
            ca,
            cb,
            rest: None,
            rank,
        });
        notes.push(DraftNote::new(key, ra, rb, 3_600_000, waits.to_vec()));
    }
    if bells.is_empty() {
        bells.push(DraftBell {
            written: 12,
            transposition: 0,
            ca: 1,
            cb: 1,
            rest: None,
            rank: 0,
        });
    }
    Draft::new(drivers, bells, notes).bytes()
}

pub fn m1() -> Vec<u8> {
    marked(1, &[(0, 0, 1, 2, 1, &[]), (0, 0, 3, 3, 2, &[])])
}

pub fn m5() -> Vec<u8> {
    marked(
        2,
        &[
            (0, 0, 2, 2, 1, &[]),
            (0, 0, 5, 5, 2, &[]),
            (0, 0, 1, 3, 3, &[]),
        ],
    )
}

pub fn m6() -> Vec<u8> {
    marked(
        2,
        &[
            (0, 0, 2, 4, 2, &[]),
            (0, 0, 1, 1, 1, &[0]),
            (3, 3, 2, 2, 3, &[]),
        ],
    )
}

pub fn m7() -> Vec<u8> {
    marked(1, &[(0, 0, 1, 1, 1, &[]), (0, 0, 1, 1, 1, &[])])
}

pub fn m8() -> Vec<u8> {
    marked(1, &[])
}

/// Strokes that may go in any order that keeps each bell's own: so many on each bell, one driver.
pub fn in_any_order(counts: &[usize]) -> Vec<u8> {
    let mut bells = Vec::new();
    let mut notes = Vec::new();
    for (key, &count) in (60..).zip(counts) {
        bells.push(DraftBell {
            written: key,
            transposition: 0,
            ca: 1,
            cb: 1,
            rest: None,
            rank: 1,
        });
        notes.extend((0..count).map(|_| DraftNote::new(key, 0, 1_000, 3_600_000, vec![])));
    }
    Draft::new(1, bells, notes).bytes()
}

/// Phrases that take all of 16,384 words, and just over 16,384: the bells' counts and the words.
pub const NEAR_HOST_WORDS: [([usize; 3], usize); 2] = [([44, 15, 3], 16_384), ([21, 9, 9], 16_400)];
