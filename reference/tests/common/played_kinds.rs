//! What playings were compared: answers, what is wrong with refused ones, and what happens in runs.

use reference::dispatch::Scenario;
use reference::playing::Played;
use reference::reading::Phrase;

use crate::counts::Counts;
use crate::differences::same;
use crate::tally::Tally;
use crate::was_10::WasTen;

/// With so late a last call, or such rests, the literal run is slow.
const LONG: u64 = 20_000;

pub fn is_long(phrase: &Phrase, scenario: &Scenario) -> bool {
    let rests: u64 = phrase.strokes.iter().map(|stroke| stroke.rest).sum();
    rests >= LONG || scenario.calls.iter().any(|&call| call >= LONG)
}

/// What was compared.
pub struct Kinds {
    pub answers: Tally,
    pub was_10: WasTen,
    /// What alone is wrong where the answer is 17, or what would be 18.
    malformed: Counts<5>,
    /// What is wrong with the stroke that an 18 names.
    outside: Counts<4>,
    /// Strokes out of range where the answer is 18.
    how_many: Counts<2>,
    runs: Counts<7>,
    /// Long runs that were run literally as well.
    pub literal_too: u64,
}

impl Kinds {
    pub fn new() -> Kinds {
        Kinds {
            answers: Tally::default(),
            was_10: WasTen::default(),
            malformed: Counts::new(
                "17",
                [
                    "too short for a head",
                    "only the version",
                    "only the count",
                    "only the number of strokes",
                    "a value out of range as well",
                ],
            ),
            outside: Counts::new(
                "18",
                ["call below", "call above", "hold below", "hold above"],
            ),
            how_many: Counts::new("18, strokes out of range", ["one", "several"]),
            runs: Counts::new(
                "runs",
                [
                    "accepted",
                    "refused by the check",
                    "with a start at 0",
                    "with a stroke that waits for a driver",
                    "with a start in the millisecond of an end",
                    "with no stroke",
                    "long",
                ],
            ),
            literal_too: 0,
        }
    }

    pub fn print(&self) {
        (self.answers).print("random playings that agree, by their answer");
        self.was_10.print("of these");
        self.malformed.print();
        self.outside.print();
        self.how_many.print();
        self.runs.print();
        println!("long runs that are run literally too: {}", self.literal_too);
    }

    /// Names a kind that was too rarely met in so many cases.
    pub fn demand_all(&self, cases: u64) -> Result<(), String> {
        let refused_by_reading = (1..=12).map(|kind| (kind, 400));
        for (kind, of) in [(0, 10), (17, 10), (18, 10)]
            .into_iter()
            .chain(refused_by_reading)
        {
            let often = self.answers.counts[kind] * of >= cases;
            same(often, format!("answer {kind} is rare"))?;
        }
        self.was_10.demand(cases)?;
        self.malformed.demand(cases, 200)?;
        self.outside.demand(cases, 100)?;
        self.how_many.demand(cases, 100)?;
        self.runs.demand(cases, 400)
    }

    pub fn add_malformed(&mut self, phrase: &Phrase, playing: &[u8]) {
        let Some((head, rest)) = playing.split_at_checked(5) else {
            self.malformed.add([true, false, false, false, false]);
            return;
        };
        let version = head[0] != 1;
        let count = value(&head[1..]) != rest.len() as u64;
        let strokes = rest.len() != 6 * phrase.strokes.len();
        let out_of_range = !strokes && outside(phrase, playing).next().is_some();
        self.malformed.add([
            false,
            version && !count && !strokes,
            count && !version && !strokes,
            strokes && !version && !count,
            out_of_range,
        ]);
    }

    pub fn add_outside(&mut self, phrase: &Phrase, playing: &[u8], place: u64) {
        let is_one = outside(phrase, playing).count() == 1;
        self.outside
            .add(ways_outside(phrase, playing, place as usize));
        self.how_many.add([is_one, !is_one]);
    }

    pub fn add_run(
        &mut self,
        phrase: &Phrase,
        scenario: &Scenario,
        played: &Played,
        accepted: bool,
    ) {
        let strokes = 0..phrase.strokes.len();
        let waits_for_driver = |number: usize| {
            let stroke = &phrase.strokes[number];
            let ends = (stroke.waits.iter()).map(|&w| played.ends[w] + stroke.rest_after(w));
            played.starts[number] > ends.fold(scenario.calls[number], u64::max)
        };
        let ends = &played.ends[strokes.clone()];
        let starts = &played.starts[strokes.clone()];
        self.runs.add([
            accepted,
            !accepted,
            starts.contains(&0),
            strokes.clone().any(waits_for_driver),
            starts.iter().any(|start| ends.contains(start)),
            strokes.is_empty(),
            is_long(phrase, scenario),
        ]);
    }
}

fn value(bytes: &[u8]) -> u64 {
    bytes.iter().fold(0, |value, &b| value << 8 | u64::from(b))
}

/// Whether a stroke's call is below or above its range, and its hold.
fn ways_outside(phrase: &Phrase, playing: &[u8], number: usize) -> [bool; 4] {
    let (call, hold) = playing[5 + 6 * number..][..6].split_at(4);
    let (call, hold) = (value(call), value(hold));
    let stroke = &phrase.strokes[number];
    [
        call < stroke.call.low,
        call > stroke.call.high,
        hold < stroke.hold.low,
        hold > stroke.hold.high,
    ]
}

/// The strokes with a value out of range, in a playing of the phrase's number of strokes.
fn outside(phrase: &Phrase, playing: &[u8]) -> impl Iterator<Item = usize> {
    let is_outside = |&number: &usize| ways_outside(phrase, playing, number).contains(&true);
    (0..phrase.strokes.len()).filter(is_outside)
}
