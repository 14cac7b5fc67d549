// Plain enumeration: the states that satisfy the equations of a window and its closing stop are tried in rising order.

use crate::case::Case;
use crate::space::{odd, rows, Space};

/// What trying a state needs: the register, and the masks and bits of the stop's positions.
struct Runner {
    taps: u64,
    cells: u64,
    stop: Vec<(u64, bool)>,
}

impl Runner {
    fn new(case: &Case) -> Runner {
        let places = (0..case.masks.len()).filter(|place| case.stop.0 >> place & 1 == 1);
        Runner {
            taps: case.taps,
            cells: u64::MAX >> (64 - case.cells),
            stop: places
                .map(|place| (case.masks[place], case.stop.1 >> place & 1 == 1))
                .collect(),
        }
    }

    /// Whether the first slices of a state don't show the stop.
    fn quiet(&self, mut state: u64, slices: usize) -> bool {
        for _ in 0..slices {
            let shows = |&(mask, bit): &(u64, bool)| odd(state & mask) == bit;
            if self.stop.iter().all(shows) {
                return false;
            }
            state = (state << 1 | u64::from(odd(state & self.taps))) & self.cells;
        }
        true
    }

    /// The lowest state of a space whose first slices don't show the stop.
    fn lowest(&self, space: &Space, slices: usize) -> Option<u64> {
        let mut changes = Vec::new();
        let mut sum = 0;
        for vector in &space.vectors {
            sum ^= vector;
            changes.push(sum);
        }
        let (mut state, mut count) = (space.lowest, 0u64);
        while !self.quiet(state, slices) {
            // one more in binary: the vectors up to the lowest that was not taken change
            count += 1;
            state ^= changes.get(count.trailing_zeros() as usize)?;
        }
        Some(state)
    }
}

/// Spaces for the lengths from 0 on: at m, the states that agree with the first m slices. Ends before the first length that has none.
fn prefixes(case: &Case, table: &[Vec<u64>], start: usize) -> Vec<Space> {
    let mut spaces = vec![Space::all(case.cells)];
    let slices = case.specified[start..].iter().zip(&case.bits[start..]);
    for ((&specified, &bits), row) in slices.zip(table).take(case.window_limit) {
        let mut space = spaces[spaces.len() - 1].clone();
        if !space.keep_slice(row, specified, bits) {
            break;
        }
        spaces.push(space);
    }
    spaces
}

/// The seed of the case's slices as one window, which closes with the stop.
pub fn window(case: &Case) -> Option<u64> {
    let length = case.specified.len();
    let table = rows(case, length);
    let mut space = prefixes(case, &table, 0).into_iter().nth(length)?;
    if !space.keep_slice(&table[length], case.stop.0, case.stop.1) {
        return None;
    }
    Runner::new(case).lowest(&space, length)
}

/// The longest window from a start, and its seed. The one that ends the set need not close with the stop.
fn longest(case: &Case, table: &[Vec<u64>], start: usize) -> Option<(usize, u64)> {
    let runner = Runner::new(case);
    let left = case.specified.len() - start;
    let spaces = prefixes(case, table, start).into_iter().enumerate();
    for (length, mut space) in spaces.skip(1).rev() {
        if length == left || space.keep_slice(&table[length], case.stop.0, case.stop.1) {
            if let Some(seed) = runner.lowest(&space, length) {
                return Some((length, seed));
            }
        }
    }
    None
}

/// The seeds of the case's slices as a set; or the slices of the longest start that can be cut.
pub fn set(case: &Case) -> Result<Vec<u64>, usize> {
    let table = rows(case, case.window_limit);
    let (mut seeds, mut start) = (Vec::new(), 0);
    while start < case.specified.len() {
        let (length, seed) = longest(case, &table, start).ok_or(start)?;
        seeds.push(seed);
        start += length;
    }
    Ok(seeds)
}
