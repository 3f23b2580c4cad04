//! Counts the answers that request #105 changed: 11 for a note whose key has no bell, which was 10.

/// One of so many cases has to be such; with the default settings every stream has at least six times as many.
const CASES_PER_WAS_10: u64 = 8_000;

#[derive(Default)]
pub struct WasTen {
    count: u64,
}

impl WasTen {
    pub fn add(&mut self, is_met: bool) {
        self.count += u64::from(is_met);
    }

    pub fn print(&self, what: &str) {
        let count = self.count;
        println!("{what} with 11 for a note whose key has no bell: {count}");
    }

    /// Fails if it was too rarely met in so many cases.
    pub fn demand(&self, cases: u64) -> Result<(), String> {
        if self.count * CASES_PER_WAS_10 < cases {
            return Err("11 for a note whose key has no bell is rare".to_string());
        }
        Ok(())
    }
}
