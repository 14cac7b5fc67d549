// The foreign declarations of the library, as crates/seeds/src/lib.rt has them. A slice is a pointer and a length.
// tests/declarations.rs holds them, and those of c/seeds.h, against that file.
//
// A pointer must not be null, also where its length is 0, and must be aligned. It must lead to as many entries as its
// length says, and a buffer that is written must not overlap anything else that is handed in. Nothing checks this:
// the functions of this package hand in Rust's slices, which are so.

use crate::LONGEST_WINDOW;

/// A register, by its number of cells and its taps, with the settings of a call: the limit is the most slices of a window, and the chains of `invert` deliver the opposite bit. Cell i has weight 2^i, chain j weight 2^(j-1). It is made by [`Settings::new`]: a version with a setting more has a field more.
#[repr(C)]
#[derive(Clone, Copy, Debug, PartialEq, Eq)]
#[non_exhaustive]
pub struct Settings {
    pub cells: usize,
    pub taps: u64,
    pub limit: usize,
    pub invert: u64,
}

impl Settings {
    /// A register, with windows of up to 256 slices and no inverted chain.
    pub const fn new(cells: usize, taps: u64) -> Settings {
        Settings {
            cells,
            taps,
            limit: LONGEST_WINDOW,
            invert: 0,
        }
    }

    /// The same register, with windows of up to `limit` slices, 1 to 256. Any other limit is refused by 3 with 0 in every call with a window, a cutting or an expanding in it; a step and a slice do not look at it.
    ///
    /// Document 01's window 10, x1 has two slices:
    /// ```
    /// use seeds::{window_seed, Machine, Refusal, Settings, TestSlice, TestSlices};
    /// let stop = TestSlice { specified: 3, bits: 2 };
    /// let window = TestSlices { specified: &[3, 2], bits: &[1, 2] };
    /// let seed = |limit| {
    ///     let settings = Settings::new(3, 6).with_limit(limit);
    ///     window_seed(Machine::new(settings, &[1, 4]), stop, window)
    /// };
    /// assert_eq!(seed(2), Ok(3));
    /// assert_eq!(seed(1), Err(Refusal::new(3, 0)));
    /// ```
    pub const fn with_limit(self, limit: usize) -> Settings {
        Settings { limit, ..self }
    }

    /// The same register, with the chains of `mask` inverted: chain 1 counts 1, chain 2 counts 2, chain 3 counts 4 and so on. They deliver the opposite bit, wherever a slice is formed. A bit beyond the chains is refused by 2 with 0 in every call that takes chains; a step does not look at it.
    ///
    /// Document 01's state 3 has the slice 10; with chain 2 inverted it is 11:
    /// ```
    /// use seeds::{slice, Machine, Refusal, Settings};
    /// let of = |mask| slice(Machine::new(Settings::new(3, 6).with_invert(mask), &[1, 4]), 3);
    /// assert_eq!(of(0), Ok(1));
    /// assert_eq!(of(2), Ok(3));
    /// assert_eq!(of(4), Err(Refusal::new(2, 0)));
    /// ```
    pub const fn with_invert(self, mask: u64) -> Settings {
        Settings {
            invert: mask,
            ..self
        }
    }
}

/// Number 0 with the state after a step; or a refusal's number and value, with state 0.
#[repr(C)]
#[derive(Clone, Copy, Debug, PartialEq, Eq)]
pub struct StateAnswer {
    pub number: usize,
    pub value: usize,
    pub state: u64,
}

/// Number 0 with the slice of a state; or a refusal's number and value, with slice 0.
#[repr(C)]
#[derive(Clone, Copy, Debug, PartialEq, Eq)]
pub struct SliceAnswer {
    pub number: usize,
    pub value: usize,
    pub slice: u64,
}

/// Number 0 with the stop slice; or a refusal's number and value, with a stop slice of 0 and 0.
#[repr(C)]
#[derive(Clone, Copy, Debug, PartialEq, Eq)]
pub struct StopAnswer {
    pub number: usize,
    pub value: usize,
    pub specified: u64,
    pub bits: u64,
}

/// The answer of a call that writes into a lent buffer: number 0 with the entries written, or a refusal's number and value.
#[repr(C)]
#[derive(Clone, Copy, Debug, PartialEq, Eq)]
pub struct Answer {
    pub number: usize,
    pub value: usize,
}

/// Number 0 with the seed of the window; or a refusal's number and value, with seed 0.
#[repr(C)]
#[derive(Clone, Copy, Debug, PartialEq, Eq)]
pub struct SeedAnswer {
    pub number: usize,
    pub value: usize,
    pub seed: u64,
}

/// Number 0 with the seeds written and the stop slice; or a refusal's number and value, with a stop slice of 0 and 0.
#[repr(C)]
#[derive(Clone, Copy, Debug, PartialEq, Eq)]
pub struct CubesAnswer {
    pub number: usize,
    pub value: usize,
    pub specified: u64,
    pub bits: u64,
}

/// Number 0 with the bytes written and the seeds or slices in them; or a refusal's number and value, and beside cause 9 the seeds or slices that enough space would have given, else 0.
#[repr(C)]
#[derive(Clone, Copy, Debug, PartialEq, Eq)]
pub struct TextAnswer {
    pub number: usize,
    pub value: usize,
    pub entries: usize,
}

extern "C" {
    pub fn seeds_step(settings: Settings, state: u64) -> StateAnswer;
    pub fn seeds_slice(
        settings: Settings,
        masks: *const u64,
        masks_len: usize,
        state: u64,
    ) -> SliceAnswer;
    pub fn seeds_check_window(
        settings: Settings,
        masks: *const u64,
        masks_len: usize,
        stop_specified: u64,
        stop_bits: u64,
        specified: *const u64,
        specified_len: usize,
        bits: *const u64,
        bits_len: usize,
    ) -> usize;
    pub fn seeds_check_set(
        settings: Settings,
        masks: *const u64,
        masks_len: usize,
        stop_specified: u64,
        stop_bits: u64,
        specified: *const u64,
        specified_len: usize,
        bits: *const u64,
        bits_len: usize,
    ) -> usize;
    pub fn seeds_check_cubes(
        settings: Settings,
        masks: *const u64,
        masks_len: usize,
        depth: usize,
        specified: *const u64,
        specified_len: usize,
        bits: *const u64,
        bits_len: usize,
    ) -> usize;
    pub fn seeds_check_stop(
        chains: usize,
        specified: *const u64,
        specified_len: usize,
        bits: *const u64,
        bits_len: usize,
    ) -> usize;
    pub fn seeds_check_list(
        settings: Settings,
        masks: *const u64,
        masks_len: usize,
        stop_specified: u64,
        stop_bits: u64,
        slices: usize,
        seeds: usize,
    ) -> usize;
    pub fn seeds_stop(
        chains: usize,
        specified: *const u64,
        specified_len: usize,
        bits: *const u64,
        bits_len: usize,
    ) -> StopAnswer;
    pub fn seeds_expand(
        settings: Settings,
        masks: *const u64,
        masks_len: usize,
        stop_specified: u64,
        stop_bits: u64,
        slices: usize,
        seeds: *const u64,
        seeds_len: usize,
        out: *mut u64,
        out_len: usize,
    ) -> Answer;
    pub fn seeds_window(
        settings: Settings,
        masks: *const u64,
        masks_len: usize,
        stop_specified: u64,
        stop_bits: u64,
        specified: *const u64,
        specified_len: usize,
        bits: *const u64,
        bits_len: usize,
    ) -> SeedAnswer;
    pub fn seeds_encode_set(
        settings: Settings,
        masks: *const u64,
        masks_len: usize,
        stop_specified: u64,
        stop_bits: u64,
        specified: *const u64,
        specified_len: usize,
        bits: *const u64,
        bits_len: usize,
        out: *mut u64,
        out_len: usize,
    ) -> Answer;
    pub fn seeds_encode_cubes(
        settings: Settings,
        masks: *const u64,
        masks_len: usize,
        depth: usize,
        specified: *const u64,
        specified_len: usize,
        bits: *const u64,
        bits_len: usize,
        out: *mut u64,
        out_len: usize,
    ) -> CubesAnswer;
    pub fn seeds_encode_text(
        sheet: *const u8,
        sheet_len: usize,
        out: *mut u8,
        out_len: usize,
    ) -> TextAnswer;
    pub fn seeds_expand_text(
        list: *const u8,
        list_len: usize,
        out: *mut u8,
        out_len: usize,
    ) -> TextAnswer;
}
