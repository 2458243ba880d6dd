//! A small seeded random source (splitmix64): a run is made again from its seed and its number.

pub struct Dice(u64);

impl Dice {
    pub fn new(seed: u64, run: u64) -> Self {
        let mut mixed = Self(seed);
        Self(mixed.word() ^ Self(run).word())
    }

    pub fn word(&mut self) -> u64 {
        self.0 = self.0.wrapping_add(0x9e37_79b9_7f4a_7c15);
        let mut word = self.0;
        word = (word ^ (word >> 30)).wrapping_mul(0xbf58_476d_1ce4_e5b9);
        word = (word ^ (word >> 27)).wrapping_mul(0x94d0_49bb_1331_11eb);
        word ^ (word >> 31)
    }

    pub fn below(&mut self, count: u64) -> u64 {
        self.word() % count
    }

    /// True in so many of a thousand throws.
    pub fn chance(&mut self, per_thousand: u64) -> bool {
        self.below(1000) < per_thousand
    }

    pub fn pick<T: Clone>(&mut self, from: &[T]) -> T {
        from[self.below(from.len() as u64) as usize].clone()
    }

    pub fn byte(&mut self) -> u8 {
        self.word() as u8
    }

    pub fn bytes<const N: usize>(&mut self) -> [u8; N] {
        std::array::from_fn(|_| self.byte())
    }

    pub fn octets(&mut self, length: usize) -> Vec<u8> {
        (0..length).map(|_| self.byte()).collect()
    }

    pub fn big(&mut self) -> u128 {
        u128::from_le_bytes(self.bytes())
    }
}
