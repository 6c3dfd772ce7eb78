//! A pseudo-random generator of fixed seed, so that every run makes the same cases.

/// The state of the generator (splitmix64).
pub struct Random(u64);

impl Random {
    /// Starts from a seed.
    pub fn new(seed: u64) -> Self {
        Random(seed)
    }

    /// The next 64 bits.
    pub fn bits(&mut self) -> u64 {
        self.0 = self.0.wrapping_add(0x9e37_79b9_7f4a_7c15);
        let mut z = self.0;
        z = (z ^ (z >> 30)).wrapping_mul(0xbf58_476d_1ce4_e5b9);
        z = (z ^ (z >> 27)).wrapping_mul(0x94d0_49bb_1331_11eb);
        z ^ (z >> 31)
    }

    /// A number from 0 to one less than the given one.
    pub fn below(&mut self, end: u64) -> u64 {
        self.bits() % end
    }

    /// A number from the least to the greatest given.
    pub fn within(&mut self, least: i64, greatest: i64) -> i64 {
        let span = (greatest as i128 - least as i128 + 1) as u128;
        (least as i128 + (self.bits() as u128 % span) as i128) as i64
    }

    /// Bytes of any value.
    pub fn bytes(&mut self, count: usize) -> Vec<u8> {
        (0..count).map(|_| self.bits() as u8).collect()
    }
}
