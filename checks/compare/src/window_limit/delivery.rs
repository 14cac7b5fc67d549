// A register with states that run into its stop slice, and sets that these states deliver within a limit.

use crate::bench;
use crate::call::Call;
use crate::inputs::{shaped, turn};
use crate::random::Random;
use std::collections::BTreeSet;

/// How many stop slices are tried for one run.
const TRIES: usize = 12;

/// A register with its limit and a stop slice, and the states that stand 0, 1, 2 and more steps before the stop. Only the first shows it.
pub struct Run {
    pub call: Call,
    pub states: Vec<u64>,
}

/// So many steps from a random state to the stop slice that the call then has: the last states that don't show it before, from the stop back.
fn into_stop(random: &mut Random, call: &mut Call, steps: usize) -> Vec<u64> {
    let mut state = random.bits(call.cells);
    let mut states = vec![state];
    for _ in 0..steps {
        state = second::step(call.cells as u64, call.taps, state);
        states.push(state);
    }
    states.reverse();
    let percent = [40, 100, 100][random.between(0, 2)];
    let specified = random.sparse(call.masks.len(), percent).max(1);
    call.stop = (specified, call.slice_of(state) & specified);
    let (positions, values) = call.stop;
    let quiet = |state: &&u64| !second::shows(positions, values, call.slice_of(**state));
    let length = states[1..].iter().take_while(quiet).count();
    states.truncate(1 + length);
    states
}

/// The longest of some runs of up to one step more than the limit, for a register of so many cells.
pub fn longest(random: &mut Random, cells: usize, limit: usize) -> Run {
    let mut best = Run {
        call: bench::of_r("1x", &[]),
        states: Vec::new(),
    };
    for _ in 0..TRIES {
        let chains = random.between(4, 12);
        let mut call = shaped(random, cells, chains);
        call.limit = limit;
        let states = into_stop(random, &mut call, limit + 1);
        if states.len() > best.states.len() {
            best = Run { call, states };
        }
    }
    best
}

impl Run {
    /// The most slices that a state of the run delivers within the limit.
    pub fn most(&self) -> usize {
        self.call.limit.min(self.states.len() - 1)
    }

    /// So many slices as states of the run deliver them, the longest window first, each bit specified `percent` times in a hundred; of one in four a bit is turned.
    pub fn deliver(&self, random: &mut Random, count: usize, percent: u64) -> Call {
        let mut call = bench::all_x(self.call.clone(), 0);
        let mut most = self.most().max(1);
        while call.specified.len() < count {
            let steps = most.min(self.states.len() - 1);
            let mut state = self.states[steps];
            for _ in 0..steps.clamp(1, count - call.specified.len()) {
                let specified = random.sparse(call.masks.len(), percent);
                call.specified.push(specified);
                call.bits.push(call.slice_of(state) & specified);
                state = second::step(call.cells as u64, call.taps, state);
            }
            most = random.between(1, self.most().max(1));
        }
        if random.one_in(4) {
            turn(random, &mut call);
        }
        call.slices = count;
        call
    }
}

/// Steps after which another register is tried.
const STEPS: usize = 20_000;

/// Windows of slices as a register delivers them, each cut down to the last ones that the limit allows.
struct Windows {
    /// The longest that was met.
    longest: Vec<u64>,
    /// Some in which all patterns but the stop slice stand.
    others: Vec<u64>,
    /// Patterns that none of these has.
    missing: BTreeSet<u64>,
}

impl Windows {
    /// Takes a window that has come to its end.
    fn take(&mut self, window: &[u64]) {
        if window.len() > self.longest.len() {
            self.longest = window.to_vec();
        }
        if window.iter().any(|slice| self.missing.contains(slice)) {
            self.missing.retain(|pattern| !window.contains(pattern));
            self.others.extend(window);
        }
    }
}

/// What a register delivers from a random state on, until all patterns and a window as long as the limit are met, or for some time.
fn windows(random: &mut Random, call: &Call) -> Windows {
    let (all, stop) = call.stop;
    let mut met = Windows {
        longest: Vec::new(),
        others: Vec::new(),
        missing: (0..=all).filter(|&pattern| pattern != stop).collect(),
    };
    let mut state = random.bits(call.cells);
    let mut window = Vec::new();
    for _ in 0..STEPS {
        let slice = call.slice_of(state);
        if slice != stop {
            window.push(slice);
        } else {
            met.take(&window[window.len().saturating_sub(call.limit)..]);
            window.clear();
        }
        if met.missing.is_empty() && met.longest.len() == call.limit {
            break;
        }
        state = second::step(call.cells as u64, call.taps, state);
    }
    met
}

/// Registers of fewer cells have few patterns, and need not have a window as long as the limit.
const ENOUGH_CELLS: usize = 12;

/// A set that can be cut within the limit, its first window as long as the limit, and whose stop slice steps give the one pattern that is left. For a register of 8 cells or more.
pub fn packed(random: &mut Random, cells: usize, limit: usize) -> Result<Call, String> {
    let enough = cells >= ENOUGH_CELLS;
    let chains = if enough { 6 } else { 4 };
    for _ in 0..1_000 {
        let mut call = bench::all_x(shaped(random, cells, chains), 0);
        call.limit = limit;
        call.stop = ((1 << chains) - 1, random.bits(chains));
        let met = windows(random, &call);
        if !met.missing.is_empty() || enough && met.longest.len() < limit {
            continue;
        }
        let percent = [30, 100][random.between(0, 1)];
        let first = met.longest.iter().map(|_| random.sparse(chains, percent));
        call.specified = first.collect();
        call.specified
            .extend(met.others.iter().map(|_| call.stop.0));
        let slices = met.longest.iter().chain(&met.others);
        let pairs = slices.zip(&call.specified);
        call.bits = pairs.map(|(slice, specified)| slice & specified).collect();
        call.slices = call.bits.len();
        return Ok(call);
    }
    Err(format!("no packed set for {cells} cells"))
}
