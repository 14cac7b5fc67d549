// Holds a small seeded generator, the making of sets and document 01's window limit for the
// tests.
#![allow(dead_code)]

pub mod cores;
pub mod every;
pub mod texts;

use second::{slice_of, Refused};

/// The window limit of document 01.
pub const LIMIT: u64 = 256;

/// A generator with 64 bits of state (splitmix64).
pub struct Random(pub u64);

impl Random {
    pub fn word(&mut self) -> u64 {
        self.0 = self.0.wrapping_add(0x9e37_79b9_7f4a_7c15);
        let mut z = self.0;
        z = (z ^ (z >> 30)).wrapping_mul(0xbf58_476d_1ce4_e5b9);
        z = (z ^ (z >> 27)).wrapping_mul(0x94d0_49bb_1331_11eb);
        z ^ (z >> 31)
    }

    /// A number below `bound`, which is not 0.
    pub fn below(&mut self, bound: u64) -> u64 {
        self.word() % bound
    }

    /// A number from `least` to `most`.
    pub fn between(&mut self, least: u64, most: u64) -> u64 {
        least + self.below(most - least + 1)
    }

    /// True `share` times in a hundred.
    pub fn percent(&mut self, share: u64) -> bool {
        self.below(100) < share
    }

    /// A slice for the chains with a share of specified bits: positions and bits.
    pub fn slice(&mut self, chains: u64, share: u64) -> (u64, u64) {
        let mut spec = 0;
        for place in 0..chains {
            if self.percent(share) {
                spec |= 1 << place;
            }
        }
        (spec, self.word() & spec)
    }

    /// A stop slice with at least one specified position.
    pub fn stop(&mut self, chains: u64, share: u64) -> (u64, u64) {
        let (spec, _) = self.slice(chains, share);
        let spec = spec | 1 << self.below(chains);
        (spec, self.word() & spec)
    }

    /// Several slices.
    pub fn slices(&mut self, count: u64, chains: u64, share: u64) -> (Vec<u64>, Vec<u64>) {
        (0..count).map(|_| self.slice(chains, share)).unzip()
    }

    /// Taps of a register.
    pub fn taps(&mut self, cells: u64) -> u64 {
        let last = 1 << (cells - 1);
        last | (self.word() & (last - 1))
    }

    /// Masks of chains.
    pub fn masks(&mut self, cells: u64, chains: u64) -> Vec<u64> {
        let all = u64::MAX >> (64 - cells);
        let mask = |random: &mut Random| {
            let sparse = random.word() & random.word();
            let mask = (if random.percent(50) {
                sparse
            } else {
                random.word()
            }) & all;
            if mask == 0 {
                1 << random.below(cells)
            } else {
                mask
            }
        };
        (0..chains).map(|_| mask(self)).collect()
    }
}

/// The slices written as text.
pub fn set(texts: &[&str]) -> (Vec<u64>, Vec<u64>) {
    texts.iter().map(|text| one(text)).unzip()
}

/// One slice written as text.
pub fn one(text: &str) -> (u64, u64) {
    slice_of(text.as_bytes(), text.len()).expect("a slice in form")
}

pub fn refused<T>(number: u64, value: u64) -> Result<T, Refused> {
    Err(Refused { number, value })
}
