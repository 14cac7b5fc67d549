// Windows: the space of states that the bits of a window allow, its closing stop, and the longest window from a start.

use super::leaf::{Words, NO_WORDS};
use super::pattern::Pattern;
use super::search::lowest_clear;
use super::space::{all, Space};
use std::ops::Range;

/// A register with its chains and a stop slice.
pub struct Machine {
    cells: usize,
    chains: usize,
    stop: (u64, u64),
    /// The masks that read the chains, one row for each slice.
    table: Vec<u64>,
    /// The same for the positions of the stop, and the stop's bits there.
    clauses: Vec<u64>,
    columns: usize,
    bits: u64,
}

/// What the search of a window writes to.
pub struct Room {
    words: Words,
    /// The states that windows of 1, 2, .. slices allow before they close.
    spaces: Vec<Space>,
}

pub fn room() -> Room {
    Room {
        words: NO_WORDS,
        spaces: Vec::new(),
    }
}

/// The mask that reads before a step what `mask` reads after it.
fn pull(taps: u64, mask: u64) -> u64 {
    (mask >> 1) ^ (taps & (mask & 1).wrapping_neg())
}

/// The masks of so many rows, from those of the first.
fn fill(taps: u64, masks: &[u64], rows: usize) -> Vec<u64> {
    let mut table = Vec::with_capacity(rows * masks.len());
    table.extend_from_slice(masks);
    for place in 0..(rows - 1) * masks.len() {
        table.push(pull(taps, table[place]));
    }
    table
}

/// The places of a slice that are specified, from the lowest on.
fn places(mut specified: u64) -> impl Iterator<Item = usize> {
    std::iter::from_fn(move || {
        let place = specified.trailing_zeros() as usize;
        specified &= specified.checked_sub(1)?;
        Some(place)
    })
}

/// Keeps the members whose slice agrees with a test slice; the row reads that slice. False where there are none.
fn meet(space: &mut Space, row: &[u64], specified: u64, bits: u64) -> bool {
    places(specified).all(|chain| space.restrict(row[chain], bits >> chain & 1))
}

impl Machine {
    /// The machine for windows of at most so many slices.
    pub fn new(cells: usize, taps: u64, masks: &[u64], stop: (u64, u64), slices: usize) -> Machine {
        let chosen: Vec<u64> = places(stop.0).map(|chain| masks[chain]).collect();
        let packed = places(stop.0).map(|chain| stop.1 >> chain & 1).enumerate();
        Machine {
            cells,
            chains: masks.len(),
            stop,
            table: fill(taps, masks, slices + 1),
            clauses: fill(taps, &chosen, slices + 1),
            columns: chosen.len(),
            bits: packed.fold(0, |bits, (place, bit)| bits | bit << place),
        }
    }

    fn row(&self, slice: usize) -> &[u64] {
        &self.table[slice * self.chains..][..self.chains]
    }

    /// The stop as a pattern, in some of the slices.
    fn pattern(&self, slices: Range<usize>) -> Pattern<'_> {
        Pattern {
            columns: self.columns,
            bits: self.bits,
            table: &self.clauses[slices.start * self.columns..slices.end * self.columns],
        }
    }

    /// Writes down the states that the slices allow, one space for each number of slices, as long as some state may be quiet. Forced positions are entered into a space of their own, as in the library.
    fn grow(&self, specified: &[u64], bits: &[u64], spaces: &mut Vec<Space>) {
        spaces.clear();
        let mut space = all(self.cells);
        let mut quiet = all(self.cells);
        for (slice, (&specified, &bits)) in specified.iter().zip(bits).enumerate() {
            let (row, pattern) = (self.row(slice), self.pattern(slice..slice + 1));
            let met = meet(&mut quiet, row, specified, bits) && pattern.force(&mut quiet);
            if !met || !meet(&mut space, row, specified, bits) {
                return;
            }
            spaces.push(space.clone());
        }
    }

    /// The states that all slices of a window allow.
    fn fit(&self, specified: &[u64], bits: &[u64]) -> Option<Space> {
        let mut space = all(self.cells);
        for (slice, (&specified, &bits)) in specified.iter().zip(bits).enumerate() {
            if !meet(&mut space, self.row(slice), specified, bits) {
                return None;
            }
        }
        Some(space)
    }

    /// The lowest state of a space that does not show the stop in so many slices and, where the window is closing, shows it in the next.
    fn lowest_covering(
        &self,
        mut space: Space,
        slices: usize,
        closing: bool,
        words: &mut Words,
    ) -> Option<u64> {
        let (specified, bits) = self.stop;
        if closing && !meet(&mut space, self.row(slices), specified, bits) {
            return None;
        }
        lowest_clear(self.pattern(0..slices), space, words)
    }

    /// The longest window from the first slice of a part on that some state covers: its slices and its seed. Lengths are tried from the longest that has states down. A window that takes the whole part closes with the stop where `closing` says so, a shorter one always.
    pub fn reach(
        &self,
        (specified, bits): (&[u64], &[u64]),
        closing: bool,
        room: &mut Room,
    ) -> Option<(usize, u64)> {
        self.grow(specified, bits, &mut room.spaces);
        while let Some(space) = room.spaces.pop() {
            let slices = room.spaces.len() + 1;
            let closing = closing || slices < specified.len();
            if let Some(seed) = self.lowest_covering(space, slices, closing, &mut room.words) {
                return Some((slices, seed));
            }
        }
        None
    }

    /// The lowest state that covers a window, which closes with the stop.
    pub fn seed(&self, specified: &[u64], bits: &[u64], room: &mut Room) -> Option<u64> {
        let space = self.fit(specified, bits)?;
        self.lowest_covering(space, specified.len(), true, &mut room.words)
    }
}
