// Holds a register with its chains and a stop slice for the tests, the calls on it, and the
// counter, of which each window length has one seed.

use super::Random;
use second::*;

/// A register with its chains and a stop slice.
pub struct Core {
    pub cells: u64,
    pub taps: u64,
    /// The inverted chains.
    pub invert: u64,
    pub masks: Vec<u64>,
    pub stop: (u64, u64),
}

impl Core {
    pub fn window(&self, limit: u64, spec: &[u64], bits: &[u64]) -> Result<u64, Refused> {
        let (invert, masks, stop) = (self.invert, &self.masks, self.stop);
        window_seed(
            self.cells, self.taps, limit, invert, masks, stop.0, stop.1, spec, bits,
        )
    }

    pub fn brute_window(
        &self,
        limit: u64,
        spec: &[u64],
        bits: &[u64],
    ) -> Option<Result<u64, Refused>> {
        let (invert, masks, stop) = (self.invert, &self.masks, self.stop);
        brute_window(
            self.cells, self.taps, limit, invert, masks, stop.0, stop.1, spec, bits,
        )
    }

    /// Encodes a set into a buffer.
    pub fn set_into(
        &self,
        limit: u64,
        spec: &[u64],
        bits: &[u64],
        out: &mut [u64],
    ) -> Result<usize, Refused> {
        let (invert, masks, stop) = (self.invert, &self.masks, self.stop);
        encode_set(
            self.cells, self.taps, limit, invert, masks, stop.0, stop.1, spec, bits, out,
        )
    }

    /// The seeds of a set. The buffer has an entry too many, which stays as it was; on
    /// refusal all entries do.
    pub fn set(&self, limit: u64, spec: &[u64], bits: &[u64]) -> Result<Vec<u64>, Refused> {
        let mut out = vec![u64::MAX; spec.len() + 1];
        let answer = self.set_into(limit, spec, bits, &mut out);
        let rest = out.split_off(answer.unwrap_or(0));
        assert!(rest.iter().all(|&entry| entry == u64::MAX));
        answer.map(|_| out)
    }

    pub fn brute_set(&self, limit: u64, spec: &[u64], bits: &[u64]) -> Result<BruteSet, Refused> {
        let (invert, masks, stop) = (self.invert, &self.masks, self.stop);
        brute_set(
            self.cells, self.taps, limit, invert, masks, stop.0, stop.1, spec, bits,
        )
        .expect("at most 16 cells")
    }

    /// The slices of the seeds. The buffer is as in `set`.
    pub fn expand(&self, limit: u64, total: u64, seeds: &[u64]) -> Result<Vec<u64>, Refused> {
        let (invert, masks, stop) = (self.invert, &self.masks, self.stop);
        let mut out = vec![u64::MAX; 2049];
        let answer = expand(
            self.cells, self.taps, limit, invert, masks, stop.0, stop.1, total, seeds, &mut out,
        );
        let rest = out.split_off(answer.unwrap_or(0));
        assert!(rest.iter().all(|&entry| entry == u64::MAX));
        answer.map(|_| out)
    }

    /// True if the state covers the window and closes it with its stop.
    pub fn covers(&self, limit: u64, spec: &[u64], bits: &[u64], state: u64) -> bool {
        let (invert, masks, stop) = (self.invert, &self.masks, self.stop);
        covers(
            self.cells, self.taps, limit, invert, masks, stop.0, stop.1, spec, bits, state, true,
        )
    }

    /// True if the state covers the window, as one that ends a set.
    pub fn covers_last(&self, limit: u64, spec: &[u64], bits: &[u64], state: u64) -> bool {
        let (invert, masks, stop) = (self.invert, &self.masks, self.stop);
        covers(
            self.cells, self.taps, limit, invert, masks, stop.0, stop.1, spec, bits, state, false,
        )
    }

    /// The first slice of a state that shows the stop, among slices 0 to `last`.
    pub fn first_stop(&self, state: u64, last: usize) -> Option<usize> {
        let mut now = state;
        for t in 0..=last {
            if shows(
                self.stop.0,
                self.stop.1,
                slice(&self.masks, self.invert, now),
            ) {
                return Some(t);
            }
            now = step(self.cells, self.taps, now);
        }
        None
    }

    /// The number of slices in each seed's window, for the list of a set of `total` slices:
    /// up to its stop, and up to the end of the set for the last seed.
    pub fn lengths(&self, total: usize, seeds: &[u64]) -> Vec<usize> {
        let (last, others) = seeds.split_last().expect("a list with a seed");
        let length = |&seed| self.first_stop(seed, 300).expect("a seed that stops");
        let mut lengths: Vec<usize> = others.iter().map(length).collect();
        let left = total - lengths.iter().sum::<usize>();
        assert!(left > 0 && self.first_stop(*last, left - 1).is_none());
        lengths.push(left);
        lengths
    }
}

/// Nine cells of period 511, a chain for each, and a stop that only the state 1ff shows.
pub fn counter() -> Core {
    Core {
        cells: 9,
        taps: 0x108,
        invert: 0,
        masks: (0..9).map(|cell| 1 << cell).collect(),
        stop: (0x1ff, 0x1ff),
    }
}

/// The counter's states by the number of steps to the stop: the only state with its first
/// stop at slice m stands at m.
pub fn steps_before_stop(core: &Core) -> Vec<u64> {
    let mut states = vec![0x1ff];
    let mut state = step(core.cells, core.taps, 0x1ff);
    while state != 0x1ff {
        states.push(state);
        state = step(core.cells, core.taps, state);
    }
    assert_eq!(states.len(), 511);
    states[1..].reverse();
    states
}

/// So many slices without a specified bit.
pub fn free(count: u64) -> Vec<u64> {
    vec![0; count as usize]
}

/// A small register with a stop slice, and a set for it.
pub fn small(random: &mut Random, most_cells: u64, most_slices: u64) -> (Core, Vec<u64>, Vec<u64>) {
    let cells = random.between(1, most_cells);
    let chains = random.between(1, 7);
    let share = [0, 5, 15, 30, 60][random.below(5) as usize];
    let stop_share = [10, 40, 80][random.below(3) as usize];
    let count = random.between(1, most_slices);
    let (spec, bits) = random.slices(count, chains, share);
    let core = Core {
        cells,
        taps: random.taps(cells),
        invert: 0,
        masks: random.masks(cells, chains),
        stop: random.stop(chains, stop_share),
    };
    (core, spec, bits)
}
