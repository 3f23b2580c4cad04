//! Counts what is met, by kinds that have names; one thing may be of several kinds.

/// Names of kinds, and how many were met of each.
pub struct Counts<const N: usize> {
    title: &'static str,
    names: [&'static str; N],
    counts: [u64; N],
}

impl<const N: usize> Counts<N> {
    pub fn new(title: &'static str, names: [&'static str; N]) -> Counts<N> {
        Counts {
            title,
            names,
            counts: [0; N],
        }
    }

    /// Counts all kinds that are met.
    pub fn add(&mut self, met: [bool; N]) {
        for (count, met) in self.counts.iter_mut().zip(met) {
            *count += u64::from(met);
        }
    }

    pub fn print(&self) {
        let counts: Vec<String> = (self.names.iter().zip(self.counts))
            .map(|(name, count)| format!("{name} {count}"))
            .collect();
        println!("{}: {}", self.title, counts.join(", "));
    }

    /// Names a kind that was met less than once in `of` cases.
    pub fn demand(&self, cases: u64, of: u64) -> Result<(), String> {
        match self.counts.iter().position(|&count| count * of < cases) {
            Some(kind) => Err(format!("{}: {} is rare", self.title, self.names[kind])),
            None => Ok(()),
        }
    }
}
