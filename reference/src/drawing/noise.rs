//! A generator of 64-bit numbers without a pattern (SplitMix64), and what is drawn from it.

pub struct Noise(u64);

impl Noise {
    pub fn new(seed: u64) -> Noise {
        Noise(seed)
    }

    pub fn number(&mut self) -> u64 {
        self.0 = self.0.wrapping_add(0x9E37_79B9_7F4A_7C15);
        let x = self.0;
        let x = (x ^ x >> 30).wrapping_mul(0xBF58_476D_1CE4_E5B9);
        let x = (x ^ x >> 27).wrapping_mul(0x94D0_49BB_1331_11EB);
        x ^ x >> 31
    }

    pub fn word(&mut self) -> u32 {
        (self.number() >> 32) as u32
    }

    /// A number from 0 to limit − 1.
    pub fn below(&mut self, limit: u32) -> u32 {
        ((self.word() as u64 * limit as u64) >> 32) as u32
    }

    pub fn index(&mut self, limit: usize) -> usize {
        self.below(limit as u32) as usize
    }

    /// A number from least to most.
    pub fn between(&mut self, least: u32, most: u32) -> u32 {
        least + self.below(most - least + 1)
    }

    /// True once in so many draws.
    pub fn once_in(&mut self, draws: u32) -> bool {
        self.below(draws) == 0
    }

    pub fn pick<T: Copy>(&mut self, from: &[T]) -> T {
        from[self.index(from.len())]
    }

    /// A number whose bit length is drawn first, from 0 to `most`.
    pub fn of_any_size(&mut self, most: u32) -> u64 {
        let bits = self.between(0, most);
        self.number().checked_shr(64 - bits).unwrap_or(0)
    }
}
