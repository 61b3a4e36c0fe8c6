//! A small deterministic generator, so that every run tests the same cases.

pub struct Random(u64);

impl Random {
    pub fn new(seed: u64) -> Self {
        Random(seed.wrapping_mul(0x9e37_79b9_7f4a_7c15) | 1)
    }

    pub fn next(&mut self) -> u64 {
        self.0 ^= self.0 << 13;
        self.0 ^= self.0 >> 7;
        self.0 ^= self.0 << 17;
        self.0.wrapping_mul(0x2545_f491_4f6c_dd1d)
    }

    /// A number below n.
    pub fn below(&mut self, n: usize) -> usize {
        ((self.next() >> 33) as usize) % n.max(1)
    }

    /// True once in n times.
    pub fn one_in(&mut self, n: usize) -> bool {
        self.below(n) == 0
    }

    /// A small word, any word, or one at a ceiling: of objects, or of counts with their mark or without.
    pub fn word(&mut self) -> u32 {
        match self.below(12) {
            0 | 1 => self.next() as u32,
            2 => 65_535,
            3 | 4 => 65_536,
            5 => u32::MAX,
            6 => [4_096, 4_097, 32_767, 32_768, 36_864, 36_865][self.below(6)],
            7 => 32_768 + self.below(12) as u32,
            _ => self.below(40) as u32,
        }
    }
}
