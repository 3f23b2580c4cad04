//! What files of version 3 were met: rests of all kinds, and files whose rests are refused.

use reference::layout::Layout;
use reference::reading::{Phrase, Refusal, Stroke, read};

use crate::counts::Counts;
use crate::tally::Tally;

pub struct RestedKinds {
    pub answers: Tally,
    phrases: Counts<6>,
    refused: Counts<8>,
}

impl RestedKinds {
    pub fn new() -> RestedKinds {
        RestedKinds {
            answers: Tally::default(),
            phrases: Counts::new(
                "of version 3 and read",
                [
                    "all rests 0",
                    "a rest of 5000",
                    "a rest between two strokes",
                    "one with a predecessor that is listed too",
                    "one with another earlier stroke of the bell listed",
                    "one with its predecessor listed by a stroke of another bell",
                ],
            ),
            refused: Counts::new(
                "of version 3 and refused",
                [
                    "another version",
                    "6 for a rest of 5001",
                    "6 for another rest",
                    "6 for a rest of a bell whose key is doubled",
                    "3 for a bell cut before its rest",
                    "3 for a bell cut in its rest",
                    "of version 2 but for its version",
                    "of version 3 but for its version",
                ],
            ),
        }
    }

    /// A file drawn as one of version 3, and its answer as the host has it.
    pub fn add(&mut self, file: &[u8], answer: u64) {
        self.answers.add(answer);
        match read(file) {
            Ok(phrase) => self.phrases.add(rests(&phrase)),
            Err(refusal) => self.add_refused(file, refusal),
        }
    }

    fn add_refused(&mut self, file: &[u8], refusal: Refusal) {
        let at = |number| refusal.number == number;
        let is_3 = file.first() == Some(&3);
        let record = file.get(refusal.place as usize..).unwrap_or_default();
        let rest = (record.get(6..8)).map_or(0, |bytes| u16::from_be_bytes([bytes[0], bytes[1]]));
        let by_rest = is_3 && at(6) && rest > 5_000;
        let in_bells = is_3 && at(3) && is_bell(file, refusal.place as usize);
        let with = |changes: &[(usize, u8)]| {
            let mut file = file.to_vec();
            changes.iter().for_each(|&(place, byte)| file[place] = byte);
            read(&file)
        };
        let rest_at = refusal.place as usize + 6;
        let doubled = Err(Refusal {
            number: 7,
            place: refusal.place,
        });
        self.refused.add([
            at(1),
            by_rest && rest == 5_001,
            by_rest && rest > 5_001,
            by_rest && with(&[(rest_at, 0), (rest_at + 1, 0)]) == doubled,
            in_bells && record.len() == 6,
            in_bells && record.len() == 7,
            is_3 && with(&[(0, 2)]).is_ok(),
            !is_3 && !file.is_empty() && with(&[(0, 3)]).is_ok(),
        ]);
    }

    pub fn print(&self) {
        self.phrases.print();
        self.refused.print();
    }

    /// Names a kind that was too rarely met in so many cases.
    pub fn demand_all(&self, cases: u64) -> Result<(), String> {
        self.phrases.demand(cases, 40)?;
        self.refused.demand(cases, 2_000)
    }
}

/// Whether one of the bells of a file of version 3 begins at this place.
fn is_bell(file: &[u8], place: usize) -> bool {
    let layout = Layout::of(3).expect("there is a version 3");
    let count = file.get(7).map_or(0, |&count| usize::from(count));
    (0..count).any(|bell| layout.bells_at() + layout.bell_bytes() * bell == place)
}

fn rests(phrase: &Phrase) -> [bool; 6] {
    let strokes = &phrase.strokes;
    let rested = || strokes.iter().filter(|s| s.rest > 0 && s.nearest.is_some());
    let lists_another = |s: &Stroke| {
        let is_another = |wait: usize| s.nearest != Some(wait) && strokes[wait].bell == s.bell;
        s.waits.iter().any(|&wait| is_another(wait))
    };
    let is_shared = |s: &Stroke| {
        let shares = |other: &Stroke| other.waits.iter().any(|&wait| s.nearest == Some(wait));
        (strokes.iter()).any(|other| other.bell != s.bell && shares(other))
    };
    [
        phrase.bells.iter().all(|bell| bell.rest == 0),
        phrase.bells.iter().any(|bell| bell.rest == 5_000),
        rested().next().is_some(),
        rested().any(|s| s.added.is_none()),
        rested().any(lists_another),
        rested().any(is_shared),
    ]
}
