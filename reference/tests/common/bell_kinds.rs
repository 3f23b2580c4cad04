//! What the bells' lines of accepted phrases have to tell (request #108): which kinds of phrases are met.

use reference::reading::Phrase;

use crate::counts::Counts;

pub struct BellKinds {
    counts: Counts<9>,
    pub phrases: u64,
}

impl BellKinds {
    pub fn new() -> BellKinds {
        let names = [
            "a bell struck twice or more",
            "with others between its strokes",
            "ten times or more",
            "a silent first bell",
            "one between struck ones",
            "a silent last bell",
            "first strokes not in the bells' order",
            "keys not in it",
            "an uncertain hold",
        ];
        BellKinds {
            counts: Counts::new("accepted phrases with", names),
            phrases: 0,
        }
    }

    pub fn add(&mut self, phrase: &Phrase) {
        let mut times = vec![0; phrase.bells.len()];
        let mut first_strokes = Vec::new();
        for stroke in &phrase.strokes {
            if times[stroke.bell] == 0 {
                first_strokes.push(stroke.bell);
            }
            times[stroke.bell] += 1;
        }
        let lines: Vec<usize> = (0..times.len()).filter(|&bell| times[bell] > 0).collect();
        let with_others_between = (0..).zip(&phrase.strokes).any(|(number, stroke)| {
            let nearest: Option<usize> = stroke.nearest;
            nearest.is_some_and(|nearest| nearest + 1 < number)
        });
        self.phrases += 1;
        self.counts.add([
            times.iter().any(|&count| count >= 2),
            with_others_between,
            times.iter().any(|&count| count >= 10),
            times.first() == Some(&0),
            lines.windows(2).any(|pair| pair[0] + 1 < pair[1]),
            times.last() == Some(&0),
            first_strokes != lines,
            !lines.iter().map(|&bell| phrase.bells[bell].key).is_sorted(),
            lines.iter().any(|&bell| {
                let hold = phrase.bells[bell].hold;
                hold.low < hold.high
            }),
        ]);
    }

    pub fn print(&self) {
        println!("accepted phrases for the bells' lines: {}", self.phrases);
        self.counts.print();
    }

    /// Names a kind that is rare among them.
    pub fn demand(&self, of: u64) -> Result<(), String> {
        self.counts.demand(self.phrases, of)
    }
}
