// Holds the seed of a window and the longest covered window at a place of a set.
// Follows document 01, "Covering and cutting", with document 02, R-3 (the window limit
// stands where 256 stood), R-4 (inverted chains) and R-5 (a window that ends the set needs no
// stop after it; a window given singly does).

use crate::check::{
    check_chains, check_invert, check_limit, check_register, check_slices, check_stop,
    check_window_length,
};
use crate::plane::Plane;
use crate::search::Search;
use crate::{refuse, Refused};

/// A register with its window limit, chains and a stop slice, in a form made for the search.
pub struct Machine {
    cells: u64,
    /// Most slices of a window. The lists below reach slice `limit`, the last that can be
    /// a window's stop.
    limit: usize,
    /// The inverted chains. Such a chain delivers a bit exactly when the sum of its row is
    /// the opposite one.
    invert: u64,
    /// `rows[t][j]`: the cells of a seed whose sum is the bit of chain j+1 in slice t, before
    /// inversion.
    rows: Vec<Vec<u64>>,
    /// `shown[t]`: slice t, as it comes out, shows the stop exactly when, for each of these
    /// pairs, the cells of the seed in the row sum to the bit.
    shown: Vec<Vec<(u64, u64)>>,
}

/// The specified places of a slice and the sums that the rows must have there: its bits, the
/// opposite at an inverted chain.
fn sums(invert: u64, spec: u64, bits: u64) -> Vec<(usize, u64)> {
    let mut places = Vec::new();
    for place in 0..64 {
        if (spec >> place) & 1 == 1 {
            places.push((place, ((bits ^ invert) >> place) & 1));
        }
    }
    places
}

/// The cells before a step whose sum is the sum of the cells in `row` after it.
fn row_before_step(taps: u64, row: u64) -> u64 {
    let fed_back = if row & 1 == 1 { taps } else { 0 };
    (row >> 1) ^ fed_back
}

impl Machine {
    /// For a register, chains, their inversion, a window limit and a stop slice that have
    /// passed causes 1, 2, 3 and 5.
    pub fn new(
        cells: u64,
        taps: u64,
        limit: u64,
        invert: u64,
        masks: &[u64],
        stop_spec: u64,
        stop_bits: u64,
    ) -> Machine {
        let limit = limit as usize;
        let mut rows = vec![masks.to_vec()];
        for t in 0..limit {
            let next = rows[t]
                .iter()
                .map(|&row| row_before_step(taps, row))
                .collect();
            rows.push(next);
        }
        let stop = sums(invert, stop_spec, stop_bits);
        let shown_by = |row: &Vec<u64>| stop.iter().map(|&(j, sum)| (row[j], sum)).collect();
        let shown = rows.iter().map(shown_by).collect();
        Machine {
            cells,
            limit,
            invert,
            rows,
            shown,
        }
    }

    /// Planes for the lengths from 0 on: the plane at m holds all states whose slices 0
    /// to m-1 agree with the first m slices. Ends at the limit, at the last slice, or
    /// before the first length that has none.
    fn agreeing(&self, spec: &[u64], bits: &[u64]) -> Vec<Plane> {
        let mut planes = vec![Plane::all(self.cells)];
        for (t, (&places, &values)) in spec.iter().zip(bits).take(self.limit).enumerate() {
            let mut plane = planes[t].clone();
            for (place, sum) in sums(self.invert, places, values) {
                if !plane.keep_row(self.rows[t][place], sum) {
                    return planes;
                }
            }
            planes.push(plane);
        }
        planes
    }

    /// The lowest state of the plane whose slices 0 to m-1 don't show the stop.
    fn running(&self, plane: Plane, m: usize) -> Option<u64> {
        Search::new(plane, &self.shown[..m])?.lowest()
    }

    /// The lowest state of the plane whose slices 0 to m-1 don't show the stop and whose
    /// slice m does.
    fn stopping_at(&self, mut plane: Plane, m: usize) -> Option<u64> {
        for &(row, bit) in &self.shown[m] {
            if !plane.keep_row(row, bit) {
                return None;
            }
        }
        self.running(plane, m)
    }

    /// The lowest state that covers the window, given singly, whose length is within the
    /// limit. The window closes with its stop.
    pub fn seed(&self, spec: &[u64], bits: &[u64]) -> Option<u64> {
        let mut planes = self.agreeing(spec, bits);
        if planes.len() <= spec.len() {
            return None;
        }
        self.stopping_at(planes.pop()?, spec.len())
    }

    /// The longest covered window, within the limit, that the slices begin with, and its
    /// seed. The slices go to the end of their set: the window of all of them ends the set
    /// and need not close with the stop; any shorter one must. A length that isn't covered
    /// says nothing of a longer one, so all are tried, the longest first.
    pub fn longest(&self, spec: &[u64], bits: &[u64]) -> Option<(usize, u64)> {
        let planes = self.agreeing(spec, bits);
        for (m, plane) in planes.into_iter().enumerate().skip(1).rev() {
            let seed = if m == spec.len() {
                self.running(plane, m)
            } else {
                self.stopping_at(plane, m)
            };
            if let Some(seed) = seed {
                return Some((m, seed));
            }
        }
        None
    }
}

/// The seed of a window given singly: the lowest covering state. The window closes with its
/// stop. Causes 1, 2 (the chains, or `invert`), 3 (the limit, or a length not 1 to the limit),
/// 4, 5, 7.
#[allow(clippy::too_many_arguments)]
pub fn window_seed(
    cells: u64,
    taps: u64,
    limit: u64,
    invert: u64,
    masks: &[u64],
    stop_spec: u64,
    stop_bits: u64,
    spec: &[u64],
    bits: &[u64],
) -> Result<u64, Refused> {
    check_register(cells, taps)?;
    check_chains(cells, masks)?;
    check_invert(masks.len() as u64, invert)?;
    check_limit(limit)?;
    check_window_length(limit, spec.len() as u64)?;
    check_slices(masks.len() as u64, spec, bits)?;
    check_stop(masks.len() as u64, stop_spec, stop_bits)?;
    let machine = Machine::new(cells, taps, limit, invert, masks, stop_spec, stop_bits);
    match machine.seed(spec, bits) {
        Some(seed) => Ok(seed),
        None => refuse(7, 0),
    }
}
