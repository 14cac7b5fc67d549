// Every set of few slices for registers of 2 to 4 cells, against brute force over all states and all cuttings and against the model; also as single windows, which close.

use super::model;
use crate::bench;
use crate::call::Call;
use crate::encodes::{brute, compare_known, Known, Met};
use crate::random::Random;
use crate::report::{same, Outcome};
use crate::spares::{all_slices, numbered};
use crate::windows;

/// One set by the model, brute force, the second program and the library, and its slices as a single window.
fn compare(random: &mut Random, call: &Call, met: &mut Met) -> Outcome {
    let known = model::encoded(call)?;
    same("the model", &known, &brute(call)?)
        .map_err(|why| format!("{why} of the set {call:x?}"))?;
    let window = model::window(call);
    note(call, &known, window.is_ok(), met);
    let count = windows::compare_known(call, window, &mut met.sets)?;
    Ok(1 + count + compare_known(random, call, known, met)?)
}

/// Notes where a set has one seed and its slices as a single window have none or another, and where state 0 is a last seed.
fn note(call: &Call, known: &Known, single: bool, met: &mut Met) {
    let Ok(seeds) = known else {
        return;
    };
    if seeds.len() == 1 && !single {
        met.sets.note("a seed as a set alone");
    }
    if seeds.last() == Some(&0) {
        let place = if seeds.len() == 1 {
            "alone"
        } else {
            "behind another"
        };
        met.sets.note(&format!("state 0 {place}"));
    }
    if call.specified.len() == 1 {
        met.sets.note("a set of one slice");
    }
}

/// Every set of up to `most` slices of the call's chains with every stop slice, at these limits.
fn every(
    random: &mut Random,
    call: &Call,
    most: usize,
    limits: &[usize],
    met: &mut Met,
) -> Outcome {
    let chains = call.masks.len();
    let slices = all_slices(chains);
    let mut call = call.clone();
    let mut count = 0;
    for length in 1..=most {
        for number in 0..slices.len().pow(length as u32) {
            let set = numbered(chains, &slices, length, number);
            (call.specified, call.bits) = (set.specified, set.bits);
            call.slices = length;
            for &stop in slices.iter().filter(|stop| stop.0 != 0) {
                for &limit in limits {
                    (call.stop, call.limit) = (stop, limit);
                    count += compare(random, &call, met)?;
                }
            }
        }
    }
    Ok(count)
}

/// A register with chains that read these cells.
fn register(cells: usize, taps: u64, masks: &[u64]) -> Call {
    Call {
        cells,
        taps,
        masks: masks.to_vec(),
        ..bench::of_r("1x", &[])
    }
}

/// What must have been met in each case.
const REQUIRED: [&str; 12] = [
    "accepted",
    "several seeds",
    "the last window closes",
    "the last window does not close",
    "a window as long as the limit",
    "a seed as a set alone",
    "a set of one slice",
    "state 0 alone",
    "state 0 behind another",
    "8 with 0",
    "8 with some slices",
    "refusal 9",
];

/// One chain: every register of 2 to 4 cells with every mask, sets of up to three slices at small limits, and of five for one mask each.
pub fn one_chain() -> Outcome {
    let mut random = Random(101);
    let mut met = Met::default();
    let mut count = 0;
    for cells in 2..=4 {
        for low in 0..1 << (cells - 1) {
            let taps = low | 1 << (cells - 1);
            for mask in 1..1 << cells {
                let call = register(cells, taps, &[mask]);
                count += every(&mut random, &call, 3, &[1, 2, 256], &mut met)?;
            }
            let call = register(cells, taps, &[1]);
            count += every(&mut random, &call, 5, &[3, 4], &mut met)?;
        }
    }
    met.sets.require(&REQUIRED)?;
    met.sets.require(&["refusal 7"])?;
    Ok(count)
}

/// Two chains: sets of up to three slices for registers of 2 to 4 cells, also with a chain inverted and with equal masks.
pub fn two_chains() -> Outcome {
    let mut random = Random(102);
    let mut met = Met::default();
    let mut count = 0;
    let registers = [
        register(2, 3, &[1, 2]),
        register(3, 6, &[1, 4]),
        register(3, 4, &[3, 3]),
        register(4, 9, &[1, 6]),
        Call {
            invert: 2,
            ..register(3, 5, &[1, 4])
        },
    ];
    for (call, limit) in registers.iter().zip([2, 1, 2, 256, 256]) {
        count += every(&mut random, call, 3, &[limit], &mut met)?;
    }
    met.sets.require(&REQUIRED)?;
    met.sets
        .require(&["refusal 7", "8 with all slices but one"])?;
    Ok(count)
}
