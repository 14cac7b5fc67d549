// A seeded generator, so that every run tries the same inputs.

pub struct Random(pub u64);

impl Random {
    pub fn word(&mut self) -> u64 {
        self.0 = self.0.wrapping_add(0x9e37_79b9_7f4a_7c15);
        let mut z = self.0;
        z = (z ^ (z >> 30)).wrapping_mul(0xbf58_476d_1ce4_e5b9);
        z = (z ^ (z >> 27)).wrapping_mul(0x94d0_49bb_1331_11eb);
        z ^ (z >> 31)
    }

    /// A number below `n`.
    pub fn below(&mut self, n: u64) -> u64 {
        self.word() % n
    }

    /// A number from `low` to `high`.
    pub fn between(&mut self, low: usize, high: usize) -> usize {
        low + self.below((high - low + 1) as u64) as usize
    }

    /// True once in `n` times.
    pub fn one_in(&mut self, n: u64) -> bool {
        self.below(n) == 0
    }

    /// A word of `width` bits, 0 to 64.
    pub fn bits(&mut self, width: usize) -> u64 {
        match width {
            0 => 0,
            64.. => self.word(),
            _ => self.word() & ((1 << width) - 1),
        }
    }

    /// A word of `width` bits in which each is set `percent` times in a hundred.
    pub fn sparse(&mut self, width: usize, percent: u64) -> u64 {
        let mut word = 0;
        for place in 0..width.min(64) {
            if self.below(100) < percent {
                word |= 1 << place;
            }
        }
        word
    }

    /// A word of one bit at or above `width`, or 0 where a word has none there.
    pub fn beyond(&mut self, width: usize) -> u64 {
        match width {
            64.. => 0,
            _ => 1 << self.between(width, 63),
        }
    }

    /// Puts the items in any order.
    pub fn shuffle<T>(&mut self, items: &mut [T]) {
        for place in (1..items.len()).rev() {
            items.swap(place, self.between(0, place));
        }
    }
}
