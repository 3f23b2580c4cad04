//! A range of whole milliseconds, both limits included.

use std::fmt;

#[derive(Clone, Copy, Debug, Default, PartialEq, Eq)]
pub struct Range {
    pub low: u64,
    pub high: u64,
}

impl Range {
    pub fn new(low: u64, high: u64) -> Range {
        Range { low, high }
    }

    /// Sharing one moment is enough.
    pub fn meets(self, other: Range) -> bool {
        self.low <= other.high && other.low <= self.high
    }

    /// The smallest range that contains both.
    pub fn widened(self, other: Range) -> Range {
        Range::new(self.low.min(other.low), self.high.max(other.high))
    }

    /// Both limits so much later.
    pub fn later(self, by: u64) -> Range {
        Range::new(self.low + by, self.high + by)
    }

    pub fn contains(self, moment: u64) -> bool {
        self.low <= moment && moment <= self.high
    }

    /// How many moments it holds.
    pub fn moments(self) -> u64 {
        self.high - self.low + 1
    }
}

/// As the report writes it.
impl fmt::Display for Range {
    fn fmt(&self, f: &mut fmt::Formatter<'_>) -> fmt::Result {
        write!(f, "{}..{}", self.low, self.high)
    }
}

#[cfg(test)]
mod tests {
    use super::Range;

    #[test]
    fn one_shared_moment_meets() {
        assert!(Range::new(1, 3).meets(Range::new(3, 9)));
        assert!(Range::new(3, 9).meets(Range::new(1, 3)));
        assert!(!Range::new(1, 2).meets(Range::new(3, 9)));
        assert!(!Range::new(3, 9).meets(Range::new(1, 2)));
    }

    #[test]
    fn widened_contains_both_and_the_gap() {
        assert_eq!(Range::new(1, 2).widened(Range::new(5, 6)), Range::new(1, 6));
        assert_eq!(Range::new(1, 9).widened(Range::new(5, 6)), Range::new(1, 9));
    }
}
