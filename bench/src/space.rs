// The states that satisfy linear equations, and the masks that turn a chain's bit in a later slice into an equation on the seed. Enumeration, document 004's procedure and the SAT solver stand on it; `fast` has its own.

use crate::case::Case;

/// The states `lowest` plus any sum of the vectors, modulo 2.
/// The vectors rise by their highest cell; at that cell `lowest` and all other vectors hold 0. So the binary count of vectors taken gives the states in rising order.
#[derive(Clone)]
pub struct Space {
    pub lowest: u64,
    pub vectors: Vec<u64>,
}

pub fn odd(word: u64) -> bool {
    word.count_ones() % 2 == 1
}

impl Space {
    /// All states of a register.
    pub fn all(cells: usize) -> Space {
        Space {
            lowest: 0,
            vectors: (0..cells).map(|cell| 1 << cell).collect(),
        }
    }

    /// Keeps the states in which an odd number of the cells of the mask hold 1, or an even number. False if there are none.
    pub fn keep(&mut self, mask: u64, bit: bool) -> bool {
        let differs = odd(self.lowest & mask) != bit;
        let Some(place) = self.vectors.iter().position(|v| odd(v & mask)) else {
            return !differs;
        };
        let taken = self.vectors.remove(place);
        for vector in &mut self.vectors[place..] {
            if odd(*vector & mask) {
                *vector ^= taken;
            }
        }
        if differs {
            self.lowest ^= taken;
        }
        true
    }

    /// Keeps the states whose cells, by one row of masks, agree with a slice. False if there are none.
    pub fn keep_slice(&mut self, row: &[u64], specified: u64, bits: u64) -> bool {
        let mut places = (0..row.len()).filter(|place| specified >> place & 1 == 1);
        places.all(|place| self.keep(row[place], bits >> place & 1 == 1))
    }
}

/// The mask that reads before a step what `mask` reads after it.
fn before_step(taps: u64, mask: u64) -> u64 {
    (mask >> 1) ^ if mask & 1 == 1 { taps } else { 0 }
}

/// The masks of slices 0 to `last` on the seed: row t has one for each chain.
pub fn rows(case: &Case, last: usize) -> Vec<Vec<u64>> {
    let mut rows = vec![case.masks.clone()];
    for slice in 0..last {
        let next = rows[slice].iter().map(|&mask| before_step(case.taps, mask));
        rows.push(next.collect());
    }
    rows
}
