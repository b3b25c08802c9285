//! A deterministic generator of random numbers.

use crate::record::Value;

/// Xorshift; the same seed gives the same numbers.
pub struct Random {
    state: u64,
}

impl Random {
    pub fn new(seed: u64) -> Self {
        // Spread small seeds over all bits; the state must not be 0.
        let state = seed.wrapping_add(1).wrapping_mul(0x9e37_79b9_7f4a_7c15);
        let mut random = Random {
            state: state.max(1),
        };
        for _ in 0..8 {
            random.bits();
        }
        random
    }

    /// For one of many cases of a seed, whatever was drawn for the others.
    pub fn of_case(seed: u64, case: u64) -> Self {
        let mut random = Random::new(seed);
        Random::new(random.bits() ^ case << 20)
    }

    pub fn bits(&mut self) -> u64 {
        self.state ^= self.state << 13;
        self.state ^= self.state >> 7;
        self.state ^= self.state << 17;
        self.state.wrapping_mul(0x2545_f491_4f6c_dd1d) >> 16
    }

    pub fn below(&mut self, end: usize) -> usize {
        (self.bits() % end as u64) as usize
    }

    pub fn byte_below(&mut self, end: usize) -> u8 {
        self.below(end) as u8
    }

    pub fn between(&mut self, least: usize, most: usize) -> usize {
        least + self.below(most - least + 1)
    }

    /// From `least` to `most`, both bounds more often than a number between.
    pub fn size(&mut self, least: usize, most: usize) -> usize {
        match self.below(8) {
            0 => least,
            1 => most,
            _ => self.between(least, most),
        }
    }

    pub fn one_in(&mut self, count: usize) -> bool {
        self.below(count) == 0
    }

    pub fn pick<T: Copy>(&mut self, choices: &[T]) -> T {
        choices[self.below(choices.len())]
    }

    pub fn shuffle<T>(&mut self, values: &mut [T]) {
        for i in 1..values.len() {
            values.swap(i, self.below(i + 1));
        }
    }

    /// Often a small number, the largest one, or one near it or near its half: sums of
    /// such are at the largest number or pass it by little.
    pub fn number(&mut self) -> u32 {
        match self.below(8) {
            0 | 1 => self.below(3) as u32,
            2 => u32::MAX,
            3 => u32::MAX - self.below(3) as u32,
            4 => u32::MAX / 2 + self.below(2) as u32,
            _ => self.bits() as u32,
        }
    }

    pub fn value(&mut self) -> Value {
        self.one_in(2).then(|| self.number())
    }
}
