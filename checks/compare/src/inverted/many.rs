// Many chains, all of them inverted, every second one or any: the library against the second program.

use super::{all, under};
use crate::call::{refused, Call};
use crate::encodes::{compare_cubes, compare_set, Met};
use crate::expands;
use crate::inputs::{fill, shaped};
use crate::leaves;
use crate::library::{self, Like, SliceAnswer};
use crate::random::Random;
use crate::report::{same, Outcome};
use crate::runs::walk;
use crate::seen::Seen;
use crate::wide;
use crate::windows;

/// Masks for so many chains: all, the last alone, every second, any.
fn masks(random: &mut Random, chains: usize) -> [u64; 4] {
    let all = all(chains);
    let second = 0x5555_5555_5555_5555 & all;
    [all, 1 << (chains - 1), second, random.bits(chains)]
}

/// Slices of random states.
fn slices(random: &mut Random, call: &Call) -> Outcome {
    for state in [0, random.bits(call.cells), random.bits(call.cells)] {
        let told = leaves::sliced(call, state);
        let ours = library::slice(call.machine(), state);
        same(
            &format!("the slice of {state:x} of {call:x?}"),
            ours,
            SliceAnswer::like(told),
        )?;
    }
    Ok(3)
}

/// The first slices of a set as a window.
fn window(random: &mut Random, call: &Call, seen: &mut Seen) -> Outcome {
    let mut window = call.clone();
    let length = random.between(1, 20);
    window.specified.truncate(length);
    window.bits.truncate(length);
    windows::compare(&window, seen)
}

/// One set under each of these masks, with its bits turned, so that what was delivered still is.
fn sets(random: &mut Random, call: &Call, met: &mut Met) -> Outcome {
    let mut count = 0;
    for invert in masks(random, call.masks.len()) {
        let call = under(call, invert);
        count += slices(random, &call)?;
        count += leaves::compare_checks(&call)?;
        count += window(random, &call, &mut met.sets)?;
        count += compare_set(random, &call, 2, met)?;
        count += compare_cubes(random, &call, 2, met)?;
    }
    Ok(count)
}

/// Lists of a register whose chains each read a cell, with the stop in the last slice that the limit allows and one slice later.
fn lists(random: &mut Random, cells: usize, seen: &mut Seen) -> Outcome {
    let (call, states) = walk(random, cells);
    let mut count = 0;
    for invert in masks(random, cells) {
        let mut call = under(&call, invert);
        for (steps, known) in [
            (vec![1], Ok(1)),
            (vec![256; 8], Ok(2_048)),
            (vec![1, 257], refused(12, 1)),
            (vec![256, 0], refused(11, 1)),
        ] {
            call.seeds = steps.iter().map(|&steps| states[steps]).collect();
            call.slices = steps.iter().sum();
            let told = call.expand(&call.seeds, &mut [0; 2_048]);
            same("the second program's list", told, known)?;
            for room in [call.slices, call.slices - 1] {
                count += 1 + expands::compare(random, &call, room, seen)?;
            }
        }
    }
    Ok(count)
}

/// Sets of 64 cells and up to 64 chains, sets of 2,048 slices with all 64 chains inverted, and lists.
pub fn answers() -> Outcome {
    let mut random = Random(88);
    let mut met = Met::default();
    let mut count = 0;
    for chains in [64, 63, 33, 32, 17] {
        for percent in [5, 10, 30, 100] {
            for _ in 0..4 {
                let call = wide::set(&mut random, chains, percent);
                count += sets(&mut random, &call, &mut met)?;
            }
        }
    }
    for percent in [5, 30, 100] {
        let mut call = shaped(&mut random, 64, 64);
        fill(&mut random, &mut call, 2_048, percent);
        call.invert = u64::MAX;
        count += compare_cubes(&mut random, &call, 2, &mut met)?;
    }
    for cells in [9, 32, 33, 63, 64] {
        count += lists(&mut random, cells, &mut met.sets)?;
    }
    for seen in [&met.sets, &met.cubes] {
        seen.require(&["accepted, 64 chains", "refusal 8, 64 chains", "refusal 9"])?;
        seen.require(&["several seeds"])?;
    }
    met.sets
        .require(&["refusal 7", "refusal 11", "refusal 12"])?;
    Ok(count)
}
