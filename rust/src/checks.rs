// The checks: which of causes 1 to 5 refuses a call before it is tried. Document 01, "Refusal sheet". Their value is 0.

use crate::{entries, Machine, Refusal, TestSlice, TestSlices};

/// Causes 1 to 5 of a window with its stop slice.
pub fn check_window(machine: Machine, stop: TestSlice, window: TestSlices) -> Result<(), Refusal> {
    let number = entries::check_window(machine, stop, window);
    Refusal::unless_accepted(number, 0)
}

/// Causes 1 to 5 of a set with its stop slice.
pub fn check_set(machine: Machine, stop: TestSlice, set: TestSlices) -> Result<(), Refusal> {
    let number = entries::check_set(machine, stop, set);
    Refusal::unless_accepted(number, 0)
}

/// Causes 1 to 4 of a set that comes as cubes of `depth` slices.
pub fn check_cubes(machine: Machine, depth: usize, set: TestSlices) -> Result<(), Refusal> {
    let number = entries::check_cubes(machine, depth, set);
    Refusal::unless_accepted(number, 0)
}

/// Causes 2 to 4 of a set whose stop slice is asked for.
pub fn check_stop(chains: usize, set: TestSlices) -> Result<(), Refusal> {
    let number = entries::check_stop(chains, set);
    Refusal::unless_accepted(number, 0)
}

/// Causes 1, 2, 3 and 5 of a list of so many seeds for so many slices, before its seeds are run.
pub fn check_list(
    machine: Machine,
    stop: TestSlice,
    slices: usize,
    seeds: usize,
) -> Result<(), Refusal> {
    let number = entries::check_list(machine, stop, slices, seeds);
    Refusal::unless_accepted(number, 0)
}
