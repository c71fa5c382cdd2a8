//! The random numbers of the comparisons: the same for the same seed, on every machine.

/// SplitMix64 (Steele, Lea and Flood 2014).
pub struct Generator {
    state: u64,
}

impl Generator {
    /// The generator of a seed.
    pub fn new(seed: u64) -> Self {
        Generator { state: seed }
    }

    /// The generator of a seed and a name, so that what a group draws does not hang on which groups run before it.
    pub fn named(seed: u64, name: &str) -> Self {
        let mixed = name.bytes().fold(seed, |state, byte| {
            Generator::new(state ^ u64::from(byte)).bits()
        });
        Generator::new(mixed)
    }

    /// 64 random bits.
    pub fn bits(&mut self) -> u64 {
        self.state = self.state.wrapping_add(0x9E37_79B9_7F4A_7C15);
        let mut z = self.state;
        z = (z ^ (z >> 30)).wrapping_mul(0xBF58_476D_1CE4_E5B9);
        z = (z ^ (z >> 27)).wrapping_mul(0x94D0_49BB_1331_11EB);
        z ^ (z >> 31)
    }

    /// A random number below `limit`, which is above 0 and far below 2^64, so that the remainder's bias is not seen.
    pub fn below(&mut self, limit: u64) -> u64 {
        self.bits() % limit
    }

    /// A random whole number from `low` to `high`, both included.
    pub fn between(&mut self, low: i64, high: i64) -> i64 {
        low + self.below((high - low + 1) as u64) as i64
    }

    /// A random number of exactly `width` bits, 1 to 64: the top one is set.
    pub fn of_width(&mut self, width: u32) -> u64 {
        (self.bits() | 1 << 63) >> (64 - width)
    }

    /// One of a list that is not empty.
    pub fn pick<T: Copy>(&mut self, list: &[T]) -> T {
        list[self.below(list.len() as u64) as usize]
    }
}

#[cfg(test)]
mod tests {
    use super::*;

    #[test]
    fn first_numbers_are_those_of_splitmix64() {
        // The published generator's first answers for the seed 1234567.
        let mut generator = Generator::new(1_234_567);
        let first = [generator.bits(), generator.bits(), generator.bits()];
        assert_eq!(
            first,
            [
                6_457_827_717_110_365_317,
                3_203_168_211_198_807_973,
                9_817_491_932_198_370_423
            ]
        );
    }

    #[test]
    fn widths_and_limits_are_kept() {
        let mut generator = Generator::new(1);
        for width in 1..=64 {
            assert_eq!(64 - generator.of_width(width).leading_zeros(), width);
        }
        for _ in 0..1000 {
            assert!((-3..=3).contains(&generator.between(-3, 3)));
        }
    }

    #[test]
    fn names_give_generators_of_their_own() {
        let first = |name| Generator::named(7, name).bits();
        assert_eq!(first("sqrt"), first("sqrt"));
        assert_ne!(first("sqrt"), first("order"));
    }
}
