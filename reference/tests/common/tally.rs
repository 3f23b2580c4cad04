//! Counts the kinds of answers: 0 for accepted, read, written or played, else the refusal's number.

#[derive(Default)]
pub struct Tally {
    pub counts: [u64; 20],
}

impl Tally {
    /// An answer as the host has it, with the refusal's number in its upper half.
    pub fn add(&mut self, answer: u64) {
        self.counts[(answer >> 32) as usize] += 1;
    }

    pub fn print(&self, title: &str) {
        let all: u64 = self.counts.iter().sum();
        println!("{title}: {all}");
        for (kind, &count) in self.counts.iter().enumerate() {
            if count > 0 {
                let share = count as f64 * 100.0 / all as f64;
                println!("  {kind:2} {count:8} {share:6.2} %");
            }
        }
    }
}
