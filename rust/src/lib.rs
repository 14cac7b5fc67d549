// The safe wrapper of the proved library: each entry of crates/seeds/src/lib.rt as a function over slices, with a Result.
// docs/library.md lists the entries with their answers, numbers and buffers. The words are those of document 01.

//! Seeds for scan slices, from the proved library: the stop slice of a set, the fewest seeds that deliver it, and the
//! slices of a seed list.
//!
//! No function panics, whatever it is given: unusable input gets a [`Refusal`], and a refusal changes no lent buffer.
//! What the wrapper adds to the library is unproved, and is tested in `tests/`.

mod cause;
mod checks;
mod encoding;
pub mod entries;
mod expanding;
mod limits;
pub mod raw;
mod refusal;
mod states;
mod texts;

pub use cause::Cause;
pub use checks::{check_cubes, check_list, check_set, check_stop, check_window};
pub use encoding::{encode_cubes, encode_set, stop_slice, window_seed, Encoded};
pub use expanding::expand;
pub use limits::{
    LONGEST_INPUT, LONGEST_OUTPUT, LONGEST_WINDOW, MOST_CELLS, MOST_CHAINS, MOST_SLICES, STACK,
    STACK_STOP,
};
pub use raw::Settings;
pub use refusal::Refusal;
pub use states::{slice, step};
pub use texts::{encode_sheet, encode_text, expand_list, expand_text, Written};

#[cfg(not(all(target_arch = "x86_64", target_os = "linux")))]
compile_error!("the static library is for x86-64 Linux");

/// The version of the package and of the header; docs/library.md says what stays from one to the next.
pub const VERSION: &str = env!("CARGO_PKG_VERSION");

/// A test slice or stop slice: its specified positions, and its bits there. Chain j has weight 2^(j-1).
#[derive(Clone, Copy, Debug, Default, PartialEq, Eq)]
pub struct TestSlice {
    pub specified: u64,
    pub bits: u64,
}

/// A list of test slices as two lists: the specified positions of each, and its bits there.
#[derive(Clone, Copy, Debug)]
pub struct TestSlices<'a> {
    pub specified: &'a [u64],
    pub bits: &'a [u64],
}

/// A register with its settings, and the masks of its chains. It is made by [`Machine::new`].
#[derive(Clone, Copy, Debug)]
#[non_exhaustive]
pub struct Machine<'a> {
    pub settings: Settings,
    pub masks: &'a [u64],
}

impl<'a> Machine<'a> {
    /// A register with its settings, and the masks of its chains.
    pub const fn new(settings: Settings, masks: &'a [u64]) -> Machine<'a> {
        Machine { settings, masks }
    }
}
