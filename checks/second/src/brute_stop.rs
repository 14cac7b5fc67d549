// Holds the brute force for the stop slice: every stop slice of a few chains is tried.
// Follows document 02, R-1, and document 004, section III.A: a stop slice differs from
// every test slice, x included, in at least one of its specified positions.

use crate::check::check_stop;
use crate::register::low_bits;

/// Most chains for the brute force.
pub const MOST_BRUTE_CHAINS: u64 = 8;

/// True if the test slice has the stop's bit, specified, at each specified position of the
/// stop.
fn meets(stop_spec: u64, stop_bits: u64, spec: u64, bits: u64) -> bool {
    spec & stop_spec == stop_spec && bits & stop_spec == stop_bits
}

/// Whether there is a stop slice that none of the test slices meets. Of all pairs of numbers
/// of the chains' bits, the 3^chains - 1 that are stop slices by cause 5 are tried. Panics
/// at more than 8 chains.
pub fn brute_stop_exists(chains: u64, spec: &[u64], bits: &[u64]) -> bool {
    assert!(chains <= MOST_BRUTE_CHAINS, "at most 8 chains");
    for stop_spec in 0..=low_bits(chains) {
        for stop_bits in 0..=low_bits(chains) {
            if check_stop(chains, stop_spec, stop_bits).is_err() {
                continue;
            }
            let mut slices = spec.iter().zip(bits);
            if !slices.any(|(&places, &values)| meets(stop_spec, stop_bits, places, values)) {
                return true;
            }
        }
    }
    false
}
