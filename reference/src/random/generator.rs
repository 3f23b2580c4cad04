//! A small deterministic generator of numbers (splitmix64).

#[derive(Clone, Debug)]
pub struct Generator {
    state: u64,
}

impl Generator {
    pub fn new(seed: u64) -> Generator {
        Generator { state: seed }
    }

    /// Cases of one seed start far apart, so that each can be made alone.
    pub fn of_case(seed: u64, number: u64) -> Generator {
        let mut seeds = Generator::new(seed);
        let start = seeds.next_number() ^ number.wrapping_mul(0xD1B5_4A32_D192_ED03);
        let mut mixed = Generator::new(start);
        Generator::new(mixed.next_number())
    }

    pub fn next_number(&mut self) -> u64 {
        self.state = self.state.wrapping_add(0x9E37_79B9_7F4A_7C15);
        let mut z = self.state;
        z = (z ^ (z >> 30)).wrapping_mul(0xBF58_476D_1CE4_E5B9);
        z = (z ^ (z >> 27)).wrapping_mul(0x94D0_49BB_1331_11EB);
        z ^ (z >> 31)
    }

    /// A number below `limit`, which is at least 1; the slight bias does not matter here.
    pub fn below(&mut self, limit: u64) -> u64 {
        self.next_number() % limit
    }

    /// A number from `low` to `high`, both included.
    pub fn range(&mut self, low: u64, high: u64) -> u64 {
        low + self.below(high - low + 1)
    }

    /// True `times` times in `of`.
    pub fn chance(&mut self, times: u64, of: u64) -> bool {
        self.below(of) < times
    }

    pub fn pick<T: Copy>(&mut self, values: &[T]) -> T {
        values[self.below(values.len() as u64) as usize]
    }
}

#[cfg(test)]
mod tests {
    use super::Generator;

    #[test]
    fn first_numbers_of_seed_0_are_those_of_splitmix64() {
        let mut random = Generator::new(0);
        assert_eq!(random.next_number(), 0xE220_A839_7B1D_CDAF);
        assert_eq!(random.next_number(), 0x6E78_9E6A_A1B9_65F4);
    }
}
