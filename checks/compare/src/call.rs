// A call: what it hands in, and what the second program answers to it.

use second::{BruteSet, Refused};

/// The limit of windows where none is given: document 01's.
pub const DEFAULT_LIMIT: usize = 256;

/// What a call hands in; each kind of call takes the parts that it has.
#[derive(Clone, Debug)]
pub struct Call {
    pub cells: usize,
    pub taps: u64,
    /// Most slices of a window.
    pub limit: usize,
    /// The chains that deliver the opposite bit, in slice weights.
    pub invert: u64,
    pub masks: Vec<u64>,
    pub stop: (u64, u64),
    pub depth: usize,
    pub specified: Vec<u64>,
    pub bits: Vec<u64>,
    pub slices: usize,
    pub seeds: Vec<u64>,
}

/// A refusal as the second program gives it.
pub fn refused<T>(number: u64, value: usize) -> Result<T, Refused> {
    let value = value as u64;
    Err(Refused { number, value })
}

impl Call {
    /// The slice of a state, as it is delivered.
    pub fn slice_of(&self, state: u64) -> u64 {
        second::slice(&self.masks, self.invert, state)
    }

    pub fn window_seed(&self) -> Result<u64, Refused> {
        let (cells, (positions, values)) = (self.cells as u64, self.stop);
        second::window_seed(
            cells,
            self.taps,
            self.limit as u64,
            self.invert,
            &self.masks,
            positions,
            values,
            &self.specified,
            &self.bits,
        )
    }

    pub fn encode_set(&self, out: &mut [u64]) -> Result<usize, Refused> {
        let (cells, (positions, values)) = (self.cells as u64, self.stop);
        second::encode_set(
            cells,
            self.taps,
            self.limit as u64,
            self.invert,
            &self.masks,
            positions,
            values,
            &self.specified,
            &self.bits,
            out,
        )
    }

    pub fn encode_cubes(&self, out: &mut [u64]) -> Result<(u64, u64, usize), Refused> {
        let (cells, depth) = (self.cells as u64, self.depth as u64);
        second::encode_cubes(
            cells,
            self.taps,
            self.limit as u64,
            self.invert,
            &self.masks,
            depth,
            &self.specified,
            &self.bits,
            out,
        )
    }

    pub fn stop_slice(&self) -> Result<(u64, u64), Refused> {
        second::stop_slice(self.masks.len() as u64, &self.specified, &self.bits)
    }

    pub fn expand(&self, seeds: &[u64], out: &mut [u64]) -> Result<usize, Refused> {
        let (cells, total, (positions, values)) =
            (self.cells as u64, self.slices as u64, self.stop);
        second::expand(
            cells,
            self.taps,
            self.limit as u64,
            self.invert,
            &self.masks,
            positions,
            values,
            total,
            seeds,
            out,
        )
    }

    /// The lowest covering state by trying every state.
    pub fn brute_window(&self) -> Option<Result<u64, Refused>> {
        let (cells, (positions, values)) = (self.cells as u64, self.stop);
        second::brute_window(
            cells,
            self.taps,
            self.limit as u64,
            self.invert,
            &self.masks,
            positions,
            values,
            &self.specified,
            &self.bits,
        )
    }

    /// A lawful set by trying every state and every cutting.
    pub fn brute_set(&self) -> Result<BruteSet, String> {
        let (cells, (positions, values)) = (self.cells as u64, self.stop);
        second::brute_set(
            cells,
            self.taps,
            self.limit as u64,
            self.invert,
            &self.masks,
            positions,
            values,
            &self.specified,
            &self.bits,
        )
        .ok_or("too many cells for brute force")?
        .map_err(|refused| format!("brute force refuses a lawful set by {}", refused.number))
    }
}
