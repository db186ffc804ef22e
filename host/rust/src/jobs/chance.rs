//! A small pseudo random generator (splitmix64): the same on every machine, and seeded for each index apart, so
//! that one failing case can be made again alone.

use crate::field::P;
use std::ops::RangeInclusive;

pub struct Chance(u64);

impl Chance {
    pub fn new(seed: u64, index: u64) -> Chance {
        let mut chance = Chance(seed);
        Chance(chance.word() ^ index.wrapping_mul(0xD134_2543_DE82_EF95))
    }

    pub fn word(&mut self) -> u64 {
        self.0 = self.0.wrapping_add(0x9E37_79B9_7F4A_7C15);
        let z = (self.0 ^ (self.0 >> 30)).wrapping_mul(0xBF58_476D_1CE4_E5B9);
        let z = (z ^ (z >> 27)).wrapping_mul(0x94D0_49BB_1331_11EB);
        z ^ (z >> 31)
    }

    /// From 0 to bound − 1; the slight unevenness does not matter here.
    pub fn below(&mut self, bound: usize) -> usize {
        (self.word() % bound as u64) as usize
    }

    pub fn within(&mut self, range: RangeInclusive<usize>) -> usize {
        range.start() + self.below(range.end() - range.start() + 1)
    }

    pub fn one_in(&mut self, count: usize) -> bool {
        self.below(count) == 0
    }

    pub fn pick<T: Copy>(&mut self, list: &[T]) -> T {
        list[self.below(list.len())]
    }

    /// A field word: small and extreme ones come more often than chance would have them.
    pub fn field_word(&mut self) -> u32 {
        match self.below(4) {
            0 => self.below(4) as u32,
            1 => (P - 1) as u32 - self.below(3) as u32,
            _ => (self.word() % P) as u32,
        }
    }

    pub fn nonzero_field_word(&mut self) -> u32 {
        self.field_word().max(1)
    }
}
