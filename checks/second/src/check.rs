// Holds the tests of what is handed in, by causes 1 to 5.
// Follows document 01, "Refusal sheet", and document 02, R-3 (window limit) and
// R-4 (inverted chains).

use crate::register::low_bits;
use crate::{refuse, Refused, GREATEST_DEPTH, GREATEST_LIMIT};
use crate::{MOST_CELLS, MOST_CHAINS, MOST_SLICES};

/// Cause 1: the register.
pub fn check_register(cells: u64, taps: u64) -> Result<(), Refused> {
    if !(1..=MOST_CELLS).contains(&cells) {
        return refuse(1, 0);
    }
    let beyond = taps & !low_bits(cells) != 0;
    let last_tapped = (taps >> (cells - 1)) & 1 == 1;
    if beyond || !last_tapped {
        return refuse(1, 0);
    }
    Ok(())
}

/// Cause 2: the number of chains.
pub fn check_chain_count(chains: u64) -> Result<(), Refused> {
    if !(1..=MOST_CHAINS).contains(&chains) {
        return refuse(2, 0);
    }
    Ok(())
}

/// Cause 2: one chain mask.
pub fn check_mask(cells: u64, mask: u64) -> Result<(), Refused> {
    if mask == 0 || mask & !low_bits(cells) != 0 {
        return refuse(2, 0);
    }
    Ok(())
}

/// Cause 2: the chains.
pub fn check_chains(cells: u64, masks: &[u64]) -> Result<(), Refused> {
    check_chain_count(masks.len() as u64)?;
    for &mask in masks {
        check_mask(cells, mask)?;
    }
    Ok(())
}

/// Cause 2: the mask of the inverted chains, which is in slice weights. Reading: a mask of 0
/// is lawful, since no line means just that; 0 is a fault of a chain's mask only. The number
/// of chains itself is tested elsewhere.
pub fn check_invert(chains: u64, invert: u64) -> Result<(), Refused> {
    if invert & !low_bits(chains) != 0 {
        return refuse(2, 0);
    }
    Ok(())
}

/// Cause 3: a depth.
pub fn check_depth(depth: u64) -> Result<(), Refused> {
    if !(1..=GREATEST_DEPTH).contains(&depth) {
        return refuse(3, 0);
    }
    Ok(())
}

/// Cause 3: the window limit.
pub fn check_limit(limit: u64) -> Result<(), Refused> {
    if !(1..=GREATEST_LIMIT).contains(&limit) {
        return refuse(3, 0);
    }
    Ok(())
}

/// Cause 3: the length of a window, under a limit that is in its range.
pub fn check_window_length(limit: u64, length: u64) -> Result<(), Refused> {
    if !(1..=limit).contains(&length) {
        return refuse(3, 0);
    }
    Ok(())
}

/// Cause 3: a number of slices.
pub fn check_slice_count(count: u64) -> Result<(), Refused> {
    if !(1..=MOST_SLICES as u64).contains(&count) {
        return refuse(3, 0);
    }
    Ok(())
}

/// Cause 3: a number of slices that come as cubes of `depth`.
pub fn check_cubes(depth: u64, count: u64) -> Result<(), Refused> {
    check_depth(depth)?;
    check_slice_count(count)?;
    if !count.is_multiple_of(depth) {
        return refuse(3, 0);
    }
    Ok(())
}

/// True if a slice has a bit set where unspecified or a bit of either number beyond the chains.
fn ill_formed(chains: u64, spec: u64, bits: u64) -> bool {
    bits & !spec != 0 || (spec | bits) & !low_bits(chains) != 0
}

/// Cause 4: the test slices.
pub fn check_slices(chains: u64, spec: &[u64], bits: &[u64]) -> Result<(), Refused> {
    if spec.len() != bits.len() {
        return refuse(4, 0);
    }
    for (&places, &values) in spec.iter().zip(bits) {
        if ill_formed(chains, places, values) {
            return refuse(4, 0);
        }
    }
    Ok(())
}

/// Cause 5: the stop slice.
pub fn check_stop(chains: u64, spec: u64, bits: u64) -> Result<(), Refused> {
    if spec == 0 || ill_formed(chains, spec, bits) {
        return refuse(5, 0);
    }
    Ok(())
}
