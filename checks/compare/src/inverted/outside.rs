// Inverted chains beyond the chains: cause 2 with 0 in each call with chains, and no entry of a buffer changed. Cause 1 comes first, 3 and the others after; a step does not judge them.

use super::all;
use crate::bench;
use crate::call::{refused, Call};
use crate::library::{self, Like, SliceAnswer, StateAnswer};
use crate::report::{same, Outcome};
use crate::window_limit::outside::{refused_by, sheet_with_list, unjudged, with_faults, Fault};

/// Masks with a chain beyond the two of R, also those whose last 8, 16 or 32 bits are lawful.
const BEYOND: [u64; 12] = [
    4,
    5,
    7,
    8,
    0x80,
    0x100,
    0x1_0001,
    1 << 31,
    1 << 32,
    1 << 32 | 3,
    1 << 63,
    u64::MAX,
];

/// No fault, and faults that come after.
const LATER: [Fault; 10] = [
    (|_| {}, 2),
    (|call| call.limit = 0, 2),
    (|call| call.limit = 257, 2),
    (|call| (call.depth, call.slices) = (0, 0), 2),
    (|call| call.specified.clear(), 2),
    (|call| call.bits[0] = 7, 2),
    (|call| call.bits.truncate(3), 2),
    (|call| call.stop = (0, 0), 2),
    (|call| call.stop = (4, 4), 2),
    (|call| call.seeds = vec![8, 0], 2),
];

/// Each call with settings, refused by one number with 0; a step as if no chain were named.
fn compare(call: &Call, number: u64) -> Outcome {
    let mut count = refused_by(call, number)?;
    for state in 0..=8 {
        let slice = library::slice(call.machine(), state);
        same("the slice", slice, SliceAnswer::like(refused(number, 0)))?;
        count += 1 + unjudged(call, state)?;
    }
    if number == 2 {
        let step = library::step(call.settings(), 3);
        same("the step", step, StateAnswer::like(Ok(7)))?;
    }
    Ok(count)
}

/// Document 01's sheet as a call with its list, under each mask beyond its chains and with each fault.
fn of_r() -> Outcome {
    let mut call = sheet_with_list()?;
    let mut count = 0;
    for invert in BEYOND {
        call.invert = invert;
        count += with_faults(&call, &LATER, compare)?;
    }
    Ok(count)
}

/// A call of so many chains that no check refuses, under a mask.
fn chained(chains: usize, invert: u64) -> Call {
    let mut call = bench::all_x(bench::of_r("1x", &[]), 2);
    call.masks = vec![1; chains];
    call.invert = invert;
    call.seeds = vec![3];
    call
}

/// The chains that a call of so many may have inverted, and the lowest and the highest that it may not.
fn of_chains(chains: usize) -> Outcome {
    let mut count = 0;
    for invert in [0, 1, 1 << (chains - 1), all(chains)] {
        let call = chained(chains, invert);
        let checks = [
            call.check_window(),
            call.check_set(),
            call.check_cubes(),
            call.check_list(),
        ];
        same("the checks", checks, [0; 4])?;
        same("the slice", library::slice(call.machine(), 0).slice, invert)?;
        count += 5;
    }
    if chains < 64 {
        let lowest = 1 << chains;
        for invert in [lowest, lowest | 1, 1 << 63, !all(chains), u64::MAX] {
            count += compare(&chained(chains, invert), 2)?;
        }
    }
    Ok(count)
}

/// R with every fault, and 1 to 64 chains.
pub fn answers() -> Outcome {
    let mut count = of_r()?;
    for chains in 1..=64 {
        count += of_chains(chains).map_err(|why| format!("{why} of {chains} chains"))?;
    }
    Ok(count)
}
