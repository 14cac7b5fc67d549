// Each entry of the library over Rust's slices, with its answer as the library gives it. All that is unsafe in this package stands here:
// a slice is never null, is aligned, has its length, and one that is lent to be written overlaps no other.

use crate::raw::{
    self, Answer, CubesAnswer, SeedAnswer, SliceAnswer, StateAnswer, StopAnswer, TextAnswer,
};
use crate::{Machine, Settings, TestSlice, TestSlices};

/// One step of a register from a state.
pub fn step(settings: Settings, state: u64) -> StateAnswer {
    unsafe { raw::seeds_step(settings, state) }
}

/// The slice of a state.
pub fn slice(machine: Machine, state: u64) -> SliceAnswer {
    let masks = machine.masks;
    unsafe { raw::seeds_slice(machine.settings, masks.as_ptr(), masks.len(), state) }
}

/// The number of the first of causes 1 to 5 that refuses a window, or 0.
pub fn check_window(machine: Machine, stop: TestSlice, window: TestSlices) -> usize {
    unsafe {
        raw::seeds_check_window(
            machine.settings,
            machine.masks.as_ptr(),
            machine.masks.len(),
            stop.specified,
            stop.bits,
            window.specified.as_ptr(),
            window.specified.len(),
            window.bits.as_ptr(),
            window.bits.len(),
        )
    }
}

/// The number of the first of causes 1 to 5 that refuses a set, or 0.
pub fn check_set(machine: Machine, stop: TestSlice, set: TestSlices) -> usize {
    unsafe {
        raw::seeds_check_set(
            machine.settings,
            machine.masks.as_ptr(),
            machine.masks.len(),
            stop.specified,
            stop.bits,
            set.specified.as_ptr(),
            set.specified.len(),
            set.bits.as_ptr(),
            set.bits.len(),
        )
    }
}

/// The number of the first of causes 1 to 4 that refuses cubes, or 0.
pub fn check_cubes(machine: Machine, depth: usize, set: TestSlices) -> usize {
    unsafe {
        raw::seeds_check_cubes(
            machine.settings,
            machine.masks.as_ptr(),
            machine.masks.len(),
            depth,
            set.specified.as_ptr(),
            set.specified.len(),
            set.bits.as_ptr(),
            set.bits.len(),
        )
    }
}

/// The number of the first of causes 2 to 4 that refuses a set whose stop slice is asked for, or 0.
pub fn check_stop(chains: usize, set: TestSlices) -> usize {
    unsafe {
        raw::seeds_check_stop(
            chains,
            set.specified.as_ptr(),
            set.specified.len(),
            set.bits.as_ptr(),
            set.bits.len(),
        )
    }
}

/// The number of the first of causes 1, 2, 3 and 5 that refuses a list of so many seeds, or 0.
pub fn check_list(machine: Machine, stop: TestSlice, slices: usize, seeds: usize) -> usize {
    unsafe {
        raw::seeds_check_list(
            machine.settings,
            machine.masks.as_ptr(),
            machine.masks.len(),
            stop.specified,
            stop.bits,
            slices,
            seeds,
        )
    }
}

/// The stop slice of a set.
pub fn stop(chains: usize, set: TestSlices) -> StopAnswer {
    unsafe {
        raw::seeds_stop(
            chains,
            set.specified.as_ptr(),
            set.specified.len(),
            set.bits.as_ptr(),
            set.bits.len(),
        )
    }
}

/// The seed of a window.
pub fn window(machine: Machine, stop: TestSlice, window: TestSlices) -> SeedAnswer {
    unsafe {
        raw::seeds_window(
            machine.settings,
            machine.masks.as_ptr(),
            machine.masks.len(),
            stop.specified,
            stop.bits,
            window.specified.as_ptr(),
            window.specified.len(),
            window.bits.as_ptr(),
            window.bits.len(),
        )
    }
}

/// The seeds of a set.
pub fn encode_set(machine: Machine, stop: TestSlice, set: TestSlices, out: &mut [u64]) -> Answer {
    unsafe {
        raw::seeds_encode_set(
            machine.settings,
            machine.masks.as_ptr(),
            machine.masks.len(),
            stop.specified,
            stop.bits,
            set.specified.as_ptr(),
            set.specified.len(),
            set.bits.as_ptr(),
            set.bits.len(),
            out.as_mut_ptr(),
            out.len(),
        )
    }
}

/// The seeds and the stop slice of cubes.
pub fn encode_cubes(
    machine: Machine,
    depth: usize,
    set: TestSlices,
    out: &mut [u64],
) -> CubesAnswer {
    unsafe {
        raw::seeds_encode_cubes(
            machine.settings,
            machine.masks.as_ptr(),
            machine.masks.len(),
            depth,
            set.specified.as_ptr(),
            set.specified.len(),
            set.bits.as_ptr(),
            set.bits.len(),
            out.as_mut_ptr(),
            out.len(),
        )
    }
}

/// The slices of a seed list.
pub fn expand(
    machine: Machine,
    stop: TestSlice,
    slices: usize,
    seeds: &[u64],
    out: &mut [u64],
) -> Answer {
    unsafe {
        raw::seeds_expand(
            machine.settings,
            machine.masks.as_ptr(),
            machine.masks.len(),
            stop.specified,
            stop.bits,
            slices,
            seeds.as_ptr(),
            seeds.len(),
            out.as_mut_ptr(),
            out.len(),
        )
    }
}

/// The seed list of a sheet.
pub fn encode_text(sheet: &[u8], out: &mut [u8]) -> TextAnswer {
    unsafe { raw::seeds_encode_text(sheet.as_ptr(), sheet.len(), out.as_mut_ptr(), out.len()) }
}

/// The slice lines of a seed list.
pub fn expand_text(list: &[u8], out: &mut [u8]) -> TextAnswer {
    unsafe { raw::seeds_expand_text(list.as_ptr(), list.len(), out.as_mut_ptr(), out.len()) }
}
