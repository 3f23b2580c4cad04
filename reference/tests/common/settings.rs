//! What the comparisons are told, and how they tell of a difference.

use std::env;
use std::ops::Range;

use reference::random;

/// Which cases to compare: so many of a seed, from a number on.
pub struct Wanted {
    pub count: u64,
    pub seed: u64,
    first: u64,
}

impl Wanted {
    /// From COMPARE_COUNT, COMPARE_SEED and COMPARE_FIRST.
    pub fn new() -> Result<Wanted, String> {
        let count = setting("COMPARE_COUNT", random::CASES)?;
        if count == 0 {
            return Err("COMPARE_COUNT is 0: nothing to compare".to_string());
        }
        Ok(Wanted {
            count,
            seed: setting("COMPARE_SEED", random::SEED)?,
            first: setting("COMPARE_FIRST", 0)?,
        })
    }

    /// The numbers of the cases, or of others of which there is one for every so many.
    pub fn numbers(&self, cases_per: u64) -> Range<u64> {
        self.first..self.first + self.count.div_ceil(cases_per)
    }

    /// What makes this case, or another of its number, the first to be compared.
    pub fn name(&self, number: u64) -> String {
        format!("COMPARE_SEED={} COMPARE_FIRST={number}", self.seed)
    }
}

/// A number from the environment.
pub fn setting(name: &str, otherwise: u64) -> Result<u64, String> {
    match env::var(name) {
        Ok(value) => value.parse().map_err(|_| format!("{name} is no number")),
        Err(_) => Ok(otherwise),
    }
}

pub fn in_hexadecimal(file: &[u8]) -> String {
    file.iter().map(|byte| format!("{byte:02X}")).collect()
}

/// A comparison whose difference begins with the call's name.
pub fn named<T>(call: &str, compare: impl FnOnce() -> Result<T, String>) -> Result<T, String> {
    compare().map_err(|difference| format!("{call}: {difference}"))
}
