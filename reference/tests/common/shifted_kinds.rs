//! What files of version 2 were met: all shifts, keys that only the right sum takes to a bell or to none, and heads that are
//! refused.

use reference::reading::{Phrase, Refusal, read};

use crate::counts::Counts;
use crate::tally::Tally;

pub struct ShiftedKinds {
    pub answers: Tally,
    /// By shift, from -24 on: phrases whose answer is 0.
    by_shift: [u64; 49],
    /// The same with a shift that is not 0.
    shifted: Counts<5>,
    misses: Counts<6>,
    heads: Counts<12>,
}

impl ShiftedKinds {
    pub fn new() -> ShiftedKinds {
        ShiftedKinds {
            answers: Tally::default(),
            by_shift: [0; 49],
            shifted: Counts::new(
                "of version 2 with answer 0 and a shift",
                [
                    "below 0",
                    "above 0",
                    "with a key above 119",
                    "with a key below 12",
                    "with a key that is that of another bell",
                ],
            ),
            misses: Counts::new(
                "of version 2 with answer 10, the sum",
                [
                    "below 12",
                    "below 0",
                    "above 119",
                    "missing the bell that the key has without the shift",
                    "missing the bell that it has with the shift the other way",
                    "missing the bell that its low byte has",
                ],
            ),
            heads: Counts::new(
                "of version 2 and refused",
                [
                    "another version",
                    "3 at 5",
                    "3 at 6",
                    "3 at 7",
                    "19 for a shift of 25 or -25",
                    "19 for one further out",
                    "19 where nothing follows the shift",
                    "19 with a wrong bell count too",
                    "4 with a wrong shift too",
                    "5 at 7",
                    "sound as version 1",
                    "of version 1 and sound as version 2",
                ],
            ),
        }
    }

    /// A file drawn as one of version 2, and its answer as the host has it.
    pub fn add(&mut self, file: &[u8], answer: u64) {
        self.answers.add(answer);
        match read(file) {
            Ok(phrase) if answer == 0 => self.add_phrase(&phrase),
            Ok(_) => {}
            Err(refusal) => {
                self.add_head(file, refusal);
                if refusal.number == 10 {
                    self.add_miss(file, refusal.place as usize);
                }
            }
        }
    }

    fn add_phrase(&mut self, phrase: &Phrase) {
        self.by_shift[(phrase.shift + 24) as usize] += 1;
        if phrase.shift != 0 {
            self.shifted.add(shifted(phrase));
        }
    }

    /// A file refused with 10 at this note.
    fn add_miss(&mut self, file: &[u8], place: usize) {
        let Some((shift, bells)) = shift_and_bells(file) else {
            return;
        };
        let written = i64::from(file[place + 1]);
        let sum = written + shift;
        let has_bell = |key: i64| shift != 0 && bells.contains(&key);
        self.misses.add([
            (0..12).contains(&sum),
            sum < 0,
            sum > 119,
            has_bell(written),
            has_bell(written - shift),
            has_bell(sum & 0xFF),
        ]);
    }

    fn add_head(&mut self, file: &[u8], refusal: Refusal) {
        let at = |number, place| refusal == Refusal { number, place };
        let shift = file.get(6).map_or(0, |&byte| i64::from(byte as i8));
        let is_19 = at(19, 6);
        let wrong_bell_count = file.get(7).is_some_and(|count| !(1..=96).contains(count));
        let version = file.first().copied().unwrap_or(0);
        let sound_as = |other: u8| {
            let mut file = file.to_vec();
            file[0] = other;
            read(&file).is_ok()
        };
        let is_2 = version == 2;
        self.heads.add([
            at(1, 0),
            is_2 && at(3, 5),
            is_2 && at(3, 6),
            is_2 && at(3, 7),
            is_19 && shift.abs() == 25,
            is_19 && shift.abs() > 25,
            is_19 && file.len() == 7,
            is_19 && wrong_bell_count,
            is_2 && at(4, 5) && shift.abs() > 24,
            is_2 && at(5, 7),
            is_2 && sound_as(1),
            version == 1 && sound_as(2),
        ]);
    }

    pub fn print(&self) {
        println!("with answer 0, by shift from -24 on: {:?}", self.by_shift);
        self.shifted.print();
        self.misses.print();
        self.heads.print();
    }

    /// Names a kind that was too rarely met in so many cases.
    pub fn demand_all(&self, cases: u64) -> Result<(), String> {
        if let Some(shift) = self.by_shift.iter().position(|&n| n * 2_500 < cases) {
            return Err(format!("shift {} is rare", shift as i64 - 24));
        }
        self.shifted.demand(cases, 50)?;
        self.misses.demand(cases, 5_000)?;
        self.heads.demand(cases, 5_000)
    }
}

fn shifted(phrase: &Phrase) -> [bool; 5] {
    let written = || phrase.strokes.iter().map(|s| i64::from(s.written));
    let is_bells = |key: i64| phrase.bells.iter().any(|bell| bell.key == key);
    [
        phrase.shift < 0,
        phrase.shift > 0,
        written().any(|key| key > 119),
        written().any(|key| key < 12),
        written().any(is_bells),
    ]
}

/// Of a file of version 2 with all its bells: the shift, and the keys that they sound for.
fn shift_and_bells(file: &[u8]) -> Option<(i64, Vec<i64>)> {
    let (&[2, _, _, _, _, _, shift, count], bells) = file.split_first_chunk::<8>()? else {
        return None;
    };
    let sounding = |bell: &[u8]| i64::from(bell[0]) + i64::from(bell[1] as i8);
    let bells = bells.chunks_exact(7).take(count.into()).map(sounding);
    Some((i64::from(shift as i8), bells.collect()))
}
