//! What phrases of version 3 were written or refused for their rests, each in the ways that a careless writer would take.

use reference::draft::Draft;
use reference::reading::{Refusal, read};
use reference::writing::{EditedPhrase, file_length};

use crate::counts::Counts;

pub struct RestedWriting {
    sound: Counts<4>,
    wrong_rests: Counts<6>,
}

impl RestedWriting {
    pub fn new() -> RestedWriting {
        RestedWriting {
            sound: Counts::new(
                "sound in version 3",
                [
                    "all rests 0",
                    "a rest of 1 to 4999",
                    "a rest of 5000",
                    "rests and a shift",
                ],
            ),
            wrong_rests: Counts::new(
                "6 for a rest",
                [
                    "of 5001 to 65535",
                    "that is sound if cut to its bytes",
                    "in version 2, sound without it",
                    "in version 1, sound without it",
                    "in version 1 or 2 that is too long in any",
                    "of a bell whose key is doubled",
                ],
            ),
        }
    }

    /// A phrase drawn as one of version 3, whatever the room for its file.
    pub fn add(&mut self, phrase: &EditedPhrase) {
        match file_length(phrase) {
            Ok(_) if phrase.version == 3 => self.add_sound(phrase),
            Err(refusal) if refusal.number == 6 => self.add_wrong(phrase, refusal),
            _ => {}
        }
    }

    fn add_sound(&mut self, phrase: &EditedPhrase) {
        let has = |is: fn(u32) -> bool| phrase.bells().iter().any(|bell| is(bell.rest));
        self.sound.add([
            !has(|rest| rest != 0),
            has(|rest| (1..5_000).contains(&rest)),
            has(|rest| rest == 5_000),
            has(|rest| rest != 0) && phrase.shift != 0,
        ]);
    }

    /// A phrase refused with 6; without its rests it may be sound, or refused with another number or elsewhere.
    fn add_wrong(&mut self, phrase: &EditedPhrase, refusal: Refusal) {
        let mut other = phrase.clone();
        other.bells.iter_mut().for_each(|bell| bell.rest = 0);
        let without = file_length(&other);
        if without == Err(refusal) {
            return;
        }
        let longest = phrase.bells().iter().map(|bell| bell.rest).max();
        let longest = longest.unwrap_or(0);
        let version = phrase.version;
        let place = refusal.place;
        self.wrong_rests.add([
            version == 3 && (5_001..=65_535).contains(&longest),
            version == 3 && read(&Draft::cut(phrase).bytes()).is_ok(),
            version == 2 && without.is_ok(),
            version == 1 && without.is_ok(),
            version < 3 && longest > 5_000,
            without == Err(Refusal { number: 7, place }),
        ]);
    }

    pub fn print(&self) {
        self.sound.print();
        self.wrong_rests.print();
    }

    /// Names a kind that was too rarely met in so many cases.
    pub fn demand_all(&self, cases: u64) -> Result<(), String> {
        self.sound.demand(cases, 50)?;
        self.wrong_rests.demand(cases, 1_000)
    }
}
