// Registers with states that run into a stop slice, and what the second program says to each of these states alone.

use crate::call::Call;
use crate::inputs::{any_invert, lawful};
use crate::random::Random;

/// A lawful call with states to take its seeds from, and what the second program says to each alone.
pub struct Pool {
    call: Call,
    /// States that run into the stop, with the number of their slices.
    running: Vec<(u64, usize)>,
    /// Seeds that are refused, with the number of their refusal.
    pub refused: Vec<(u64, u64)>,
}

/// What the second program says to a seed alone: its number of slices before its stop, or its refusal. With 2,048 slices left, more than any limit, it must run into the stop, and no seed alone comes to so many.
pub fn alone(call: &Call, seed: u64) -> Result<usize, u64> {
    let one = Call {
        slices: second::MOST_SLICES,
        ..call.clone()
    };
    match one.expand(&[seed], &mut []) {
        Err(refused) if refused.number == 14 => Ok(refused.value as usize),
        Err(refused) => Err(refused.number),
        Ok(count) => Ok(count),
    }
}

impl Pool {
    fn new(call: Call, seeds: &[u64]) -> Pool {
        let (mut running, mut refused) = (Vec::new(), Vec::new());
        for &seed in seeds {
            match alone(&call, seed) {
                Ok(slices) => running.push((seed, slices)),
                Err(number) => refused.push((seed, number)),
            }
        }
        Pool {
            call,
            running,
            refused,
        }
    }

    /// The call with up to `most` seeds that run, now and then with none, and their total.
    pub fn list(&self, random: &mut Random, most: usize) -> (Call, usize) {
        let mut call = self.call.clone();
        call.seeds.clear();
        let mut total = 0;
        if !self.running.is_empty() && !random.one_in(10) {
            for _ in 0..random.between(1, most) {
                let (seed, slices) = self.running[random.between(0, self.running.len() - 1)];
                call.seeds.push(seed);
                total += slices;
            }
        }
        call.slices = total;
        (call, total)
    }
}

/// A pool for a register of at most so many cells and chains.
pub fn pool(random: &mut Random, most_cells: usize, most_chains: usize) -> Pool {
    let call = lawful(random, most_cells, most_chains, 1);
    pool_of(random, call)
}

/// The call gets a stop slice that is shown some steps after a random state; the states in between are among the pool's.
pub fn pool_of(random: &mut Random, mut call: Call) -> Pool {
    let (cells, chains) = (call.cells, call.masks.len());
    let mut seeds = vec![0];
    let mut state = random.bits(cells);
    let steps = [1, 5, 20, 290][random.between(0, 3)];
    for left in (1..=steps).rev() {
        if left == 1 || random.one_in(4) {
            seeds.push(state);
        }
        state = second::step(cells as u64, call.taps, state);
    }
    let percent = [15, 40, 100][random.between(0, 2)];
    let specified = random.sparse(chains, percent).max(1);
    call.stop = (specified, call.slice_of(state) & specified);
    seeds.push(state);
    for place in 0..14 {
        let far = if place < 2 { random.beyond(cells) } else { 0 };
        seeds.push(random.bits(cells) | far);
    }
    Pool::new(call, &seeds)
}

/// A register whose chains each read a cell of their own, and its states from the stop back to 257 steps before it. Only the first shows the stop.
pub fn walk(random: &mut Random, cells: usize) -> (Call, Vec<u64>) {
    let mut call = lawful(random, 1, 1, 1);
    call.cells = cells;
    call.masks = (0..cells).map(|cell| 1 << cell).collect();
    call.invert = any_invert(random, cells);
    loop {
        call.taps = random.bits(cells) | 1 << (cells - 1);
        random.shuffle(&mut call.masks);
        let mut state = random.bits(cells);
        let mut states = vec![state];
        for _ in 0..257 {
            state = second::step(cells as u64, call.taps, state);
            states.push(state);
        }
        states.reverse();
        let all = u64::MAX >> (64 - cells);
        call.stop = (all, call.slice_of(state));
        // each chain reads a cell, so no other state has that slice
        if !states[1..].contains(&state) {
            return (call, states);
        }
    }
}

/// The call's test slices become those that its seeds deliver, each bit specified `percent` times in a hundred.
pub fn deliver(random: &mut Random, call: &mut Call, percent: u64) {
    let mut slices = vec![0; call.slices];
    let written = call.expand(&call.seeds, &mut slices).unwrap_or(0);
    call.specified.clear();
    call.bits.clear();
    for slice in &slices[..written] {
        let specified = random.sparse(call.masks.len(), percent);
        call.specified.push(specified);
        call.bits.push(slice & specified);
    }
}
