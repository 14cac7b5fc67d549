// Holds the list of modules, the type of a refusal and the greatest values.
// Follows document 01, "Refusal sheet", and document 02, R-3 and R-4.

//! Self-stopping seeds for scan slices: a second program, made from document
//! 004 (section III.A, figure 2), document 01 and document 02, without
//! sight of the definitions.

mod brute;
mod brute_sheet;
mod brute_stop;
mod check;
mod encode;
mod expand;
mod lines;
mod list;
mod plane;
mod register;
mod search;
mod sheet;
mod stop;
mod window;

pub use brute::{brute_set, brute_window, covers, BruteSet, MOST_BRUTE_CELLS};
pub use brute_sheet::{brute_text, BruteText};
pub use brute_stop::{brute_stop_exists, MOST_BRUTE_CHAINS};
pub use check::{
    check_chains, check_invert, check_limit, check_register, check_slices, check_stop,
};
pub use encode::{encode_cubes, encode_set};
pub use expand::expand;
pub use lines::{refusal_text, slice_of, slice_text};
pub use list::expand_text;
pub use register::{agrees, shows, slice, step};
pub use sheet::encode_text;
pub use stop::{spare_pattern, stop_slice, stop_trace, Iteration, StopTrace};
pub use window::window_seed;

/// Most cells of a register.
pub const MOST_CELLS: u64 = 64;
/// Most chains.
pub const MOST_CHAINS: u64 = 64;
/// The greatest window limit.
pub const GREATEST_LIMIT: u64 = 256;
/// The window limit of a sheet or list that has no window line.
pub const DEFAULT_LIMIT: u64 = 256;
/// The greatest depth.
pub const GREATEST_DEPTH: u64 = 256;
/// Most slices of a set, and most seeds of a list.
pub const MOST_SLICES: usize = 2048;

/// A refusal: its number on the refusal sheet and the value returned beside it.
#[derive(Clone, Copy, Debug, PartialEq, Eq)]
pub struct Refused {
    pub number: u64,
    pub value: u64,
}

/// The refusal `number` with `value`, as an error.
pub(crate) fn refuse<T>(number: u64, value: u64) -> Result<T, Refused> {
    Err(Refused { number, value })
}
