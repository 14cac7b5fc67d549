// Sets and cubes at the limits of length, depth, number of seeds and window: the library against the second program, mostly with answers that are known.

use crate::bench;
use crate::call::{refused, Call};
use crate::encodes::{compare_cubes, compare_known, compare_known_cubes, Met};
use crate::inputs::shaped;
use crate::random::Random;
use crate::report::Outcome;
use crate::runs::walk;

/// Sets of all x at the limits of length. The stop leaves one state for each window that closes, so windows of 256 come first. State 0 delivers what is left.
/// A slice that shows the stop is in no window.
fn at_limits(random: &mut Random, cells: usize, met: &mut Met) -> Outcome {
    let (call, states) = walk(random, cells);
    let mut count = 0;
    for length in [1, 2, 255, 256, 257, 511, 512, 513, 2_047, 2_048] {
        let set = bench::all_x(call.clone(), length);
        let mut seeds = vec![states[256]; (length - 1) / 256];
        seeds.push(0);
        count += compare_known(random, &set, Ok(seeds), met)?;
    }
    for length in [0, 2_049] {
        let set = bench::all_x(call.clone(), length);
        count += compare_known(random, &set, refused(3, 0), met)?;
        count += compare_known_cubes(random, &set, refused(3, 0), met)?;
    }
    for (length, place) in [(1, 0), (300, 0), (300, 256), (300, 299), (2_048, 2_047)] {
        let mut set = bench::all_x(call.clone(), length);
        (set.specified[place], set.bits[place]) = call.stop;
        count += compare_known(random, &set, refused(8, place), met)?;
    }
    Ok(count)
}

/// Numbers of slices with depths that are lawful, at their limits and between.
const LAWFUL: [(usize, usize); 8] = [
    (1, 1),
    (2, 2),
    (63, 1),
    (64, 64),
    (256, 256),
    (512, 256),
    (2_047, 23),
    (2_048, 256),
];

/// Numbers of slices with depths that are refused by 3.
const UNLAWFUL: [(usize, usize); 13] = [
    (1, 0),
    (1, 2),
    (256, 0),
    (257, 257),
    (257, 256),
    (512, 512),
    (2_048, 255),
    (2_048, 512),
    (2_048, usize::MAX),
    (2_049, 1),
    (2_049, 3),
    (0, 1),
    (0, 0),
];

/// Cubes of all x at the limits of depth and length, for the one tap: its stop slice is 1, and its longest window that closes has 63 zeros. State 0 delivers the last 256 slices or fewer.
fn at_depths(random: &mut Random, met: &mut Met) -> Outcome {
    let of = |length, depth| Call {
        depth,
        ..bench::all_x(bench::one_tap(), length)
    };
    let mut count = 0;
    for (length, depth) in LAWFUL {
        let closing = length.saturating_sub(256).div_ceil(63);
        let seeds = [vec![1; closing], vec![0]].concat();
        count += compare_known_cubes(random, &of(length, depth), Ok(seeds), met)?;
    }
    for (length, depth) in UNLAWFUL {
        count += compare_known_cubes(random, &of(length, depth), refused(3, 0), met)?;
    }
    Ok(count)
}

/// A register whose state 1 alone delivers 10, and next the stop, 0x: as many seeds as slices, the last one too.
/// A slice 01 shows the stop. With the first chain alone both patterns are then taken.
fn most_seeds(random: &mut Random, met: &mut Met) -> Outcome {
    let mut call = Call {
        cells: 2,
        taps: 2,
        masks: vec![1, 2],
        ..bench::of_r("0x", &[])
    };
    let mut count = 0;
    for length in [1, 2_047, 2_048] {
        (call.specified, call.bits) = (vec![3; length], vec![1; length]);
        count += compare_known(random, &call, Ok(vec![1; length]), met)?;
        count += compare_known_cubes(random, &call, Ok(vec![1; length]), met)?;
    }
    for place in [0, 1, 1_000, 2_047] {
        call.masks = vec![1, 2];
        (call.specified, call.bits) = (vec![3; 2_048], vec![1; 2_048]);
        call.bits[place] = 2;
        count += compare_known(random, &call, refused(8, place), met)?;
        call.masks = vec![1];
        (call.specified, call.bits[place]) = (vec![1; 2_048], 0);
        count += compare_known_cubes(random, &call, refused(6, 0), met)?;
    }
    Ok(count)
}

/// Cubes with every pattern of 6 chains but one, so that the stop slice is that one, and then slices of all x: their windows reach the limit.
fn long_windows(random: &mut Random, cells: usize, met: &mut Met) -> Outcome {
    let mut call = shaped(random, cells, 6);
    let mut patterns: Vec<u64> = (0..64).collect();
    random.shuffle(&mut patterns);
    call.stop = (63, patterns[0]);
    call.bits = patterns[1..].to_vec();
    call.specified = vec![63; 63];
    call.bits.resize(600, 0);
    call.specified.resize(600, 0);
    compare_cubes(random, &call, 2, met)
}

/// Sets and cubes at all these limits.
pub fn answers() -> Outcome {
    let mut random = Random(18);
    let mut met = Met::default();
    let mut count = 0;
    for cells in [9, 10, 16, 31, 32, 33, 63, 64] {
        count += at_limits(&mut random, cells, &mut met)?;
    }
    count += at_depths(&mut random, &mut met)?;
    count += most_seeds(&mut random, &mut met)?;
    for cells in [24, 33, 48, 63, 64] {
        count += long_windows(&mut random, cells, &mut met)?;
    }
    met.sets.require(&[
        "a window of 256",
        "a window of 1",
        "8 with all slices but one",
    ])?;
    met.cubes.require(&["a window of 256", "a window of 1"])?;
    Ok(count)
}
