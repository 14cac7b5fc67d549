// Stop slices, and the slices that are in after so many steps: the second program's answers.

use super::table::{cause, list, slice, Table};
use crate::call::Call;
use crate::inputs::{damage_lightly, lawful};
use crate::random::Random;
use crate::stops::pressed;
use second::StopTrace;
use std::fmt::Write;

/// Whether the stop slice of a set is a spare pattern: the second program's steps end with slices in, and there is one.
fn spared(call: &Call) -> bool {
    let chains = call.masks.len() as u64;
    let trace = second::stop_trace(chains, &call.specified, &call.bits);
    trace.is_ok_and(|trace| !trace.left.is_empty()) && call.stop_slice().is_ok()
}

/// A set whose stop slice is asked for. Every eighth is made again until it has a spare pattern.
fn stop_set(random: &mut Random) -> Call {
    let mut call = lawful(random, 5, 5, 8);
    if random.one_in(8) {
        while !spared(&call) {
            let set = pressed(random);
            call.masks = vec![1; set.chains];
            (call.specified, call.bits) = (set.specified, set.bits);
        }
    } else if random.one_in(4) {
        damage_lightly(random, &mut call);
    }
    call
}

pub fn stops(random: &mut Random, count: usize) -> Table {
    let rows = (0..count).map(|_| {
        let call = stop_set(random);
        let chains = call.masks.len();
        let told = match call.stop_slice() {
            Ok(stop) => format!("Ok {}", slice(stop)),
            Err(refused) => format!("Err {}", cause(refused)),
        };
        let set = format!("{} {}", list(&call.specified), list(&call.bits));
        (format!("stop_of {chains} {set}"), told)
    });
    Table {
        name: "stops".into(),
        kind: "Result TestSlice Cause",
        rows: rows.collect(),
    }
}

/// The test slices at these places, as a list.
fn test_slices(call: &Call, places: &[usize]) -> String {
    let mut text = String::from("(");
    for &place in places {
        let pair = (call.specified[place], call.bits[place]);
        let _ = write!(text, "{} ∷ ", slice(pair));
    }
    text + "[])"
}

/// The places of the slices that the second program's steps leave in after so many of them.
fn left_after(trace: &StopTrace, slices: usize, steps: usize) -> Vec<usize> {
    let mut left: Vec<usize> = (0..slices).collect();
    for iteration in trace.iterations.iter().take(steps) {
        left.retain(|place| !iteration.removed.contains(place));
    }
    left
}

/// A set that takes two steps or more, and these steps.
fn several_steps(random: &mut Random) -> (Call, StopTrace) {
    loop {
        let call = stop_set(random);
        let chains = call.masks.len() as u64;
        match second::stop_trace(chains, &call.specified, &call.bits) {
            Ok(trace) if trace.iterations.len() > 1 => return (call, trace),
            _ => {}
        }
    }
}

/// Document 02, R-7: after so many steps, the slices that are looked up to be in, and those that the published steps leave in.
pub fn stages(random: &mut Random, count: usize) -> Table {
    let rows = (0..count).map(|_| {
        let (call, trace) = several_steps(random);
        let steps = random.between(0, trace.iterations.len() + 1);
        let left = left_after(&trace, call.specified.len(), steps);
        let set = format!("(paired {} {})", list(&call.specified), list(&call.bits));
        let stage = format!("(stage {} {set} {steps})", call.masks.len());
        let told = test_slices(&call, &left);
        (
            format!("(filter (is_in {stage}.stop) {set} ∷ {stage}.left ∷ [])"),
            format!("({told} ∷ {told} ∷ [])"),
        )
    });
    Table {
        name: "stages".into(),
        kind: "List (List TestSlice)",
        rows: rows.collect(),
    }
}
