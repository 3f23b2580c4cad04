//! What is lent to the library, and what lies beyond it.

/// Lent bytes and words are followed by so many that were not lent.
const BEYOND: usize = 64;

/// What the library is lent, with known contents and more of them beyond its end.
pub struct Lent<T> {
    before: Vec<T>,
    pub after: Vec<T>,
    pub length: usize,
}

impl<T: Copy + PartialEq> Lent<T> {
    pub fn new(length: usize, mut content: impl FnMut() -> T) -> Lent<T> {
        let before: Vec<T> = (0..length + BEYOND).map(|_| content()).collect();
        Lent {
            after: before.clone(),
            before,
            length,
        }
    }

    pub fn slice(&mut self) -> &mut [T] {
        &mut self.after[..self.length]
    }

    /// Whether everything from `first` on, beyond the lent part too, is as it was.
    pub fn untouched_from(&self, first: usize) -> bool {
        self.before[first..] == self.after[first..]
    }
}
