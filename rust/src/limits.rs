// The limits of every call, as c/seeds.h has them. tests/limits.rs holds both against the library's source.

/// Most cells of a register.
pub const MOST_CELLS: usize = 64;
/// Most chains.
pub const MOST_CHAINS: usize = 64;
/// The greatest limit of a window, and the greatest depth.
pub const LONGEST_WINDOW: usize = 256;
/// Most slices of a set, and most seeds of a list.
pub const MOST_SLICES: usize = 2048;
/// Bytes of a text that decide its answer, whatever stands behind them.
pub const LONGEST_INPUT: usize = 169_601;
/// Bytes of the longest text that a call writes: 2,048 slice lines of 64 chains.
pub const LONGEST_OUTPUT: usize = 145_408;
/// Bytes of stack that are enough for every call: a thread may be made with just that many.
pub const STACK: usize = 720_896;
/// Bytes of stack that are enough for the library's call for a stop slice, which keeps nothing for each slice; what this package's function around it takes comes on top.
pub const STACK_STOP: usize = 512;
