// Windows, sets and cubes at every limit: one slice fewer than the limit, as many, one more, and several windows.

use super::delivery::{longest, packed, Run};
use super::LAWFUL;
use crate::bench;
use crate::call::{refused, Call};
use crate::encodes::{compare_cubes, compare_known, compare_set, Known, Met};
use crate::leaves;
use crate::random::Random;
use crate::report::{same, Outcome};
use crate::runs::walk;
use crate::seen::Seen;
use crate::windows;

/// How many buffers are tried: enough entries, one fewer and none.
const ROOMS: usize = 3;

/// A window of all x at a limit: the stop leaves one state for each length.
fn free_window(window: &Call, states: &[u64], seen: &mut Seen) -> Outcome {
    let length = window.specified.len();
    let known = match length {
        0 => refused(3, 0),
        _ if length > window.limit => refused(3, 0),
        _ => Ok(states[length]),
    };
    windows::compare_known(window, known, seen)
}

/// The seeds of a set of all x: windows as long as the limit come first, and state 0 delivers what is left, up to the limit.
fn free_seeds(set: &Call, states: &[u64]) -> Known {
    let (length, limit) = (set.specified.len(), set.limit);
    if length == 0 {
        return refused(3, 0);
    }
    let mut seeds = vec![states[limit]; (length - 1) / limit];
    seeds.push(0);
    Ok(seeds)
}

/// Windows and sets of all x whose answers are known, for a register whose chains each read a cell. A slice that shows the stop is in no window.
fn free_at(random: &mut Random, cells: usize, limit: usize, met: &mut Met) -> Outcome {
    let (mut call, states) = walk(random, cells);
    call.limit = limit;
    let mut count = 0;
    for length in [limit - 1, limit, limit + 1, 2 * limit + 1] {
        let set = bench::all_x(call.clone(), length);
        count += leaves::compare_checks(&set)?;
        count += free_window(&set, &states, &mut met.sets)?;
        count += compare_known(random, &set, free_seeds(&set, &states), met)?;
    }
    let mut set = bench::all_x(call.clone(), limit + 1);
    (set.specified[limit], set.bits[limit]) = call.stop;
    count += compare_known(random, &set, refused(8, limit), met)?;
    Ok(count)
}

/// All x at every limit.
pub fn free() -> Outcome {
    let mut random = Random(61);
    let mut count = 0;
    for limit in LAWFUL {
        let mut met = Met::default();
        for cells in [16, [33, 64][limit % 2]] {
            count += free_at(&mut random, cells, limit, &mut met)?;
        }
        met.sets.require(&[
            "accepted",
            "refusal 3",
            "refusal 8",
            "refusal 9",
            "a window as long as the limit",
            "8 with all slices but one",
        ])?;
    }
    Ok(count)
}

/// One set as a window, as a set and as cubes: of one slice each, one cube for all, which can be deeper than the limit, and any depth, which mostly does not divide them.
fn compare_all(random: &mut Random, mut call: Call, met: &mut Met) -> Outcome {
    let mut count = windows::compare(&call, &mut met.sets)?;
    count += compare_set(random, &call, ROOMS, met)?;
    let depths = [1, call.specified.len(), random.between(0, 257)];
    for (depth, rooms) in depths.into_iter().zip([ROOMS, 1, 1]) {
        call.depth = depth;
        count += compare_cubes(random, &call, rooms, met)?;
    }
    Ok(count)
}

/// Whether sets of all x are tried. A small register has many short windows, and each is sought from the limit down: that takes long.
fn tries_free(cells: usize, limit: usize) -> bool {
    match cells {
        ..8 => limit <= 40 || limit.is_multiple_of(36),
        _ => limit <= 40 || limit.is_multiple_of(4),
    }
}

/// Sets of a run that have one slice fewer than the limit, as many, and one more.
fn delivered_at(random: &mut Random, run: &Run, met: &mut Met) -> Outcome {
    let (cells, limit) = (run.call.cells, run.call.limit);
    let narrow = [10, 60][limit % 2];
    let wide = [40, 100][limit % 2];
    let percent = if cells < 33 { narrow } else { wide };
    let mut count = 0;
    for length in [limit - 1, limit, limit + 1] {
        let call = run.deliver(random, length, percent);
        count += leaves::compare_checks(&call)?;
        count += compare_all(random, call, met)?;
        let free = bench::all_x(run.call.clone(), length);
        if cells < 33 {
            count += windows::compare(&free, &mut met.sets)?;
        }
        if cells < 33 && tries_free(cells, limit) {
            count += compare_set(random, &free, 1, met)?;
            count += compare_cubes(random, &free, 1, met)?;
        }
    }
    Ok(count)
}

/// What the second program must have met in delivered sets and cubes.
const REQUIRED: [&str; 7] = [
    "accepted",
    "refusal 3",
    "refusal 8",
    "refusal 9",
    "several seeds",
    "a window of 1",
    "a window as long as the limit",
];

/// Delivered sets at every limit, for registers from 3 to 64 cells.
pub fn delivered() -> Outcome {
    let mut random = Random(62);
    let mut met = Met::default();
    let mut count = 0;
    for limit in LAWFUL {
        for cells in [3, 8, 16, 33, 64] {
            let run = longest(&mut random, cells, limit);
            count += delivered_at(&mut random, &run, &mut met)?;
        }
    }
    met.sets.require(&REQUIRED)?;
    met.sets.require(&["refusal 7", "a window of 256"])?;
    met.cubes.require(&REQUIRED)?;
    met.cubes.require(&["a depth above the limit"])?;
    Ok(count)
}

/// The greatest depth that divides so many slices.
fn deepest(count: usize) -> usize {
    let depths = 1..=256;
    depths
        .rev()
        .find(|&depth| count.is_multiple_of(depth))
        .unwrap_or(1)
}

/// Cubes that can be cut at every limit, with a window as long as the limit.
pub fn packed_cubes() -> Outcome {
    let mut random = Random(70);
    let mut count = 0;
    for limit in LAWFUL {
        let mut met = Met::default();
        for cells in [8, [12, 16, 20][limit % 3], [33, 48, 64][limit % 3]] {
            let mut call = packed(&mut random, cells, limit)?;
            same("the stop slice", call.stop_slice(), Ok(call.stop))?;
            let told = call.encode_cubes(&mut [0; 2_048]);
            same(&format!("accepted, {call:x?}"), told.is_ok(), true)?;
            for depth in [1, deepest(call.slices)] {
                call.depth = depth;
                count += compare_cubes(&mut random, &call, ROOMS, &mut met)?;
            }
            count += compare_set(&mut random, &call, ROOMS, &mut met)?;
        }
        let cubes = &met.cubes;
        cubes.require(&["accepted", "refusal 9", "a window as long as the limit"])?;
    }
    Ok(count)
}
