// Random calls: lawful ones, and the same with one or more parts damaged.

use crate::call::{Call, DEFAULT_LIMIT};
use crate::random::Random;

fn lawful_taps(random: &mut Random, cells: usize) -> u64 {
    random.bits(cells) | 1 << (cells - 1)
}

fn lawful_mask(random: &mut Random, cells: usize) -> u64 {
    random.bits(cells).max(1)
}

fn lawful_slice(random: &mut Random, chains: usize, percent: u64) -> (u64, u64) {
    let specified = random.sparse(chains, percent);
    (specified, random.word() & specified)
}

/// Inverted chains of so many: in one of two calls none, otherwise all, one, or any.
pub fn any_invert(random: &mut Random, chains: usize) -> u64 {
    match random.below(8) {
        0..=3 => 0,
        4 => u64::MAX >> (64 - chains),
        5 => 1 << random.between(0, chains - 1),
        _ => random.bits(chains),
    }
}

/// A lawful call with at most `most_cells` cells, `most_chains` chains and `most_slices` slices.
pub fn lawful(
    random: &mut Random,
    most_cells: usize,
    most_chains: usize,
    most_slices: usize,
) -> Call {
    let cells = random.between(1, most_cells);
    let chains = random.between(1, most_chains);
    let depth = random.between(1, 4).min(most_slices);
    let count = depth * random.between(1, most_slices / depth);
    let percent = [20, 40, 60, 90][random.between(0, 3)];
    let taps = lawful_taps(random, cells);
    let masks = (0..chains).map(|_| lawful_mask(random, cells)).collect();
    let stop_specified = random.bits(chains).max(1);
    let stop = (stop_specified, random.word() & stop_specified);
    let pairs: Vec<(u64, u64)> = (0..count)
        .map(|_| lawful_slice(random, chains, percent))
        .collect();
    let seeds = (0..random.between(0, 6))
        .map(|_| random.bits(cells))
        .collect();
    Call {
        cells,
        taps,
        limit: DEFAULT_LIMIT,
        invert: any_invert(random, chains),
        masks,
        stop,
        depth,
        specified: pairs.iter().map(|p| p.0).collect(),
        bits: pairs.iter().map(|p| p.1).collect(),
        slices: count,
        seeds,
    }
}

/// A lawful call of one slice for just so many cells and chains: often the last cell alone is tapped, masks are equal, or each has one cell.
pub fn shaped(random: &mut Random, cells: usize, chains: usize) -> Call {
    let last = 1 << (cells - 1);
    let taps = [lawful_taps(random, cells), last][random.one_in(6) as usize];
    let one_cell = random.one_in(6);
    let mut masks = Vec::new();
    for _ in 0..chains {
        let cell = 1 << random.between(0, cells - 1);
        masks.push([lawful_mask(random, cells), cell][one_cell as usize]);
    }
    if random.one_in(6) {
        let first = masks[0];
        masks[..random.between(1, chains)].fill(first);
    }
    Call {
        cells,
        taps,
        invert: any_invert(random, chains),
        masks,
        stop: (1, random.below(2)),
        ..lawful(random, 1, 1, 1)
    }
}

/// The call gets so many slices, each bit specified `percent` times in a hundred.
pub fn fill(random: &mut Random, call: &mut Call, count: usize, percent: u64) {
    let slice = |_| lawful_slice(random, call.masks.len(), percent);
    (call.specified, call.bits) = (0..count).map(slice).unzip();
}

/// A stop slice of one to five positions.
pub fn any_stop(random: &mut Random, chains: usize) -> (u64, u64) {
    let mut positions = 0;
    for _ in 0..random.between(1, 5) {
        positions |= 1 << random.between(0, chains - 1);
    }
    (positions, random.word() & positions)
}

/// A call for a wide register with few bits and a stop of few positions: many states fit, and most of them show the stop early.
pub fn searched(random: &mut Random, most_slices: usize) -> Call {
    let (cells, chains) = (random.between(40, 64), random.between(2, 20));
    let mut call = shaped(random, cells, chains);
    call.stop = any_stop(random, chains);
    let percent = [0, 2, 5, 10][random.between(0, 3)];
    let count = random.between(1, most_slices);
    fill(random, &mut call, count, percent);
    call
}

/// Blanks most of the specified bits, so that more windows have a seed.
pub fn thin(random: &mut Random, call: &mut Call) {
    for (specified, bits) in call.specified.iter_mut().zip(&mut call.bits) {
        *specified &= random.word() & random.word();
        *bits &= *specified;
    }
}

/// Turns one bit of one slice, if that slice has any.
pub fn turn(random: &mut Random, call: &mut Call) {
    let count = call.specified.len();
    if count == 0 {
        return;
    }
    let at = random.between(0, count - 1);
    let weights = (0..64).map(|place| 1 << place);
    let held: Vec<u64> = weights
        .filter(|weight| call.specified[at] & weight != 0)
        .collect();
    if !held.is_empty() {
        call.bits[at] ^= held[random.between(0, held.len() - 1)];
    }
}

/// Damages one part of a call.
pub fn damage(random: &mut Random, call: &mut Call) {
    let chains = call.masks.len();
    let place = |random: &mut Random, n: usize| {
        if n == 0 {
            0
        } else {
            random.below(n as u64) as usize
        }
    };
    match random.below(19) {
        0 => call.cells = [0, 65, 66, 1 << 40, usize::MAX][random.between(0, 4)],
        1 => call.taps = random.word(),
        2 => {
            call.taps &= !(1u64
                .checked_shl(call.cells.wrapping_sub(1) as u32)
                .unwrap_or(0))
        }
        3 => call.masks.clear(),
        4 => call.masks.resize(65, 1),
        5 => {
            if chains > 0 {
                let at = place(random, chains);
                call.masks[at] = 0;
            }
        }
        6 => {
            if chains > 0 {
                let at = place(random, chains);
                call.masks[at] = random.word() | 1 << 63;
            }
        }
        7 => call.depth = [0, 257, 256, 7, usize::MAX][random.between(0, 4)],
        8 => {
            call.specified.clear();
            call.bits.clear();
        }
        9 => {
            let count = [256, 257, 2048, 2049][random.between(0, 3)];
            call.specified.resize(count, 0);
            call.bits.resize(count, 0);
        }
        10 => {
            call.specified.pop();
        }
        11 => {
            call.bits.pop();
        }
        12 => {
            let count = call.bits.len();
            if count > 0 {
                let at = place(random, count);
                call.bits[at] = random.bits(chains);
            }
        }
        13 => {
            let count = call.specified.len();
            if count > 0 {
                let at = place(random, count);
                call.specified[at] = random.word();
            }
        }
        14 => call.stop = (0, 0),
        15 => call.stop = (random.word(), random.bits(chains)),
        16 => {
            call.invert = [random.word(), call.invert | random.beyond(chains)][random.between(0, 1)]
        }
        17 => call.slices = [0, 2048, 2049, usize::MAX][random.between(0, 3)],
        _ => call.seeds = vec![1; [0, 2047, 2048, 2049][random.between(0, 3)]],
    }
}

/// Damages one part of a call, and leaves it small.
pub fn damage_lightly(random: &mut Random, call: &mut Call) {
    let chains = call.masks.len();
    let place = random.below(call.specified.len().max(1) as u64) as usize;
    match random.below(11) {
        0 => call.cells = [0, 65, 66][random.between(0, 2)],
        1 => call.taps = random.bits(7),
        2 => call.masks.clear(),
        3 => call.masks[random.below(chains as u64) as usize] = random.bits(7),
        4 => {
            call.specified.clear();
            call.bits.clear();
        }
        5 => drop(call.specified.pop()),
        6 => drop(call.bits.pop()),
        7 => call.bits[place] = random.bits(chains + 1),
        8 => call.specified[place] = random.bits(chains + 1),
        9 => call.invert = random.bits(chains + 1),
        _ => call.stop = (random.bits(chains + 1), random.bits(chains)),
    }
}

/// A stop slice with no specified position, with a bit where it is unspecified, or with a bit beyond the chains.
pub fn damage_stop(random: &mut Random, call: &mut Call) {
    let chains = call.masks.len();
    let inside = 1 << random.between(0, chains.clamp(1, 64) - 1);
    let far = random.beyond(chains);
    match random.below(5) {
        0 => call.stop.0 = 0,
        1 => call.stop = (0, 0),
        2 => {
            call.stop.0 &= !inside;
            call.stop.1 |= inside;
        }
        3 => call.stop.0 |= far,
        _ => {
            call.stop.0 |= far;
            call.stop.1 |= far;
        }
    }
}

/// Damages one slice: bits beyond the chains, or one set where it is unspecified.
pub fn damage_slice(random: &mut Random, chains: usize, specified: &mut [u64], bits: &mut [u64]) {
    let count = specified.len().min(bits.len());
    if count == 0 {
        return;
    }
    let at = [0, random.between(0, count - 1), count - 1][random.between(0, 2)];
    let far = random.beyond(chains);
    let inside = 1 << random.between(0, chains.clamp(1, 64) - 1);
    match random.below(4) {
        0 => specified[at] |= far,
        1 => bits[at] |= far,
        2 => {
            specified[at] |= far;
            bits[at] |= far;
        }
        _ => {
            specified[at] &= !inside;
            bits[at] |= inside;
        }
    }
}

/// Damages one part of a window or set: a number beyond 32 bits, its stop slice, a slice, one of its lists, or any part of a call.
pub fn damage_set(random: &mut Random, call: &mut Call) {
    let count = [0, 2_049, call.specified.len() + 1][random.between(0, 2)];
    match random.below(10) {
        0 => call.cells |= 1 << 32,
        1 => call.depth |= 1 << 32,
        2 => damage_stop(random, call),
        3 => damage_slice(
            random,
            call.masks.len(),
            &mut call.specified,
            &mut call.bits,
        ),
        4 => call.specified.resize(count, 0),
        5 => call.bits.resize(count, 0),
        _ => damage(random, call),
    }
}
