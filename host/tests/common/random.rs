//! Seeded numbers: splitmix64.

use std::env;

const SEED: &str = "QUECHOTZAL_SEED";

/// The seed of all cases: what `QUECHOTZAL_SEED` says, or always the same.
pub fn seed() -> u64 {
    match env::var(SEED) {
        Ok(text) => text
            .parse()
            .unwrap_or_else(|why| panic!("{SEED} is {text:?}: {why}")),
        Err(_) => 5,
    }
}

pub struct Random(u64);

impl Random {
    /// The numbers of one family: they depend on the seed and on its name alone.
    pub fn of(family: &str) -> Random {
        let mut random = Random(seed());
        for byte in family.bytes() {
            random.0 = random.bits() ^ u64::from(byte);
        }
        random
    }

    pub fn bits(&mut self) -> u64 {
        self.0 = self.0.wrapping_add(0x9E37_79B9_7F4A_7C15);
        let mut z = self.0;
        z = (z ^ (z >> 30)).wrapping_mul(0xBF58_476D_1CE4_E5B9);
        z = (z ^ (z >> 27)).wrapping_mul(0x94D0_49BB_1331_11EB);
        z ^ (z >> 31)
    }

    pub fn below(&mut self, n: u64) -> u64 {
        self.between(0, n - 1)
    }

    /// A whole number from `low` to `high`, both included.
    pub fn between(&mut self, low: u64, high: u64) -> u64 {
        let choices = u128::from(high - low) + 1;
        low + ((u128::from(self.bits()) * choices) >> 64) as u64
    }

    /// A float from `low` up to `high`.
    pub fn float(&mut self, low: f64, high: f64) -> f64 {
        let part = (self.bits() >> 11) as f64 / (1u64 << 53) as f64;
        (low + part * (high - low)).min(high)
    }

    pub fn one_of<T: Copy>(&mut self, choices: &[T]) -> T {
        choices[self.between(0, choices.len() as u64 - 1) as usize]
    }

    pub fn bytes(&mut self, length: usize) -> Vec<u8> {
        (0..length).map(|_| self.bits() as u8).collect()
    }
}
