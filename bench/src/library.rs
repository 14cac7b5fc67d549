// The three entries of the proved library that are measured.

use crate::answer::Answer;
use crate::case::Case;
use seeds::{Machine, Refusal, Settings, TestSlice, TestSlices};

/// The case's register and chains, its stop slice and its slices.
fn parts(case: &Case) -> (Machine<'_>, TestSlice, TestSlices<'_>) {
    let settings = Settings::new(case.cells, case.taps).with_limit(case.window_limit);
    let machine = Machine::new(settings, &case.masks);
    let stop = TestSlice {
        specified: case.stop.0,
        bits: case.stop.1,
    };
    let slices = TestSlices {
        specified: &case.specified,
        bits: &case.bits,
    };
    (machine, stop, slices)
}

fn refused(refusal: Refusal) -> Answer {
    Answer::Refused(refusal.number, refusal.value)
}

/// The seed of the case's slices as one window.
pub fn window(case: &Case) -> Answer {
    let (machine, stop, window) = parts(case);
    seeds::window_seed(machine, stop, window).map_or_else(refused, |seed| Answer::Seeds(vec![seed]))
}

/// The encoding of the case's slices as a set, with its stop slice.
pub fn set(case: &Case) -> Answer {
    let (machine, stop, set) = parts(case);
    let mut out = vec![0; case.specified.len()];
    seeds::encode_set(machine, stop, set, &mut out)
        .map_or_else(refused, |count| Answer::Seeds(out[..count].to_vec()))
}

/// The stop slice of the case's slices.
pub fn stop(case: &Case) -> Answer {
    let (_, _, set) = parts(case);
    seeds::stop_slice(case.masks.len(), set)
        .map_or_else(refused, |stop| Answer::Stop(stop.specified, stop.bits))
}
