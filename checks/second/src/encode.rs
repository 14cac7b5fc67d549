// Holds the cutting of a set into windows and the two calls that encode a set.
// Follows document 01, "Covering and cutting" and "Refusal sheet", with document 02, R-3
// (windows are cut up to the window limit), R-4 (chains may be inverted) and R-5 (the window
// that ends the set needs no stop after it).

use crate::check::{
    check_chains, check_cubes, check_invert, check_limit, check_register, check_slice_count,
    check_slices, check_stop,
};
use crate::stop::stop_slice;
use crate::window::Machine;
use crate::{refuse, Refused};

/// The seeds of a set, each of the longest covered window from where the last one ended.
/// The window that ends the set need not close with the stop. Cause 8 with the slices cut so
/// far, all in windows that close with the stop, since none of them ends the set. The end of
/// a covered window, taken from a later slice on, is covered too, by the same closing rule
/// and within the same limit, so no cutting gets farther than the longest windows do, after
/// any number of windows.
fn cut(machine: &Machine, spec: &[u64], bits: &[u64]) -> Result<Vec<u64>, Refused> {
    let mut seeds = Vec::new();
    let mut start = 0;
    while start < spec.len() {
        let Some((length, seed)) = machine.longest(&spec[start..], &bits[start..]) else {
            return refuse(8, start as u64);
        };
        seeds.push(seed);
        start += length;
    }
    Ok(seeds)
}

/// Writes the seeds to the front of `out` and returns their number. Cause 9.
fn hand_out(seeds: &[u64], out: &mut [u64]) -> Result<usize, Refused> {
    let Some(front) = out.get_mut(..seeds.len()) else {
        return refuse(9, seeds.len() as u64);
    };
    front.copy_from_slice(seeds);
    Ok(seeds.len())
}

/// Encodes a set with the stop slice handed in. Returns the number of seeds, which stand
/// first in `out`. Causes 1, 2 (the chains, or `invert`), 3 (the limit, or the number of
/// slices), 4, 5, 8, 9; on refusal `out` is as it was.
#[allow(clippy::too_many_arguments)]
pub fn encode_set(
    cells: u64,
    taps: u64,
    limit: u64,
    invert: u64,
    masks: &[u64],
    stop_spec: u64,
    stop_bits: u64,
    spec: &[u64],
    bits: &[u64],
    out: &mut [u64],
) -> Result<usize, Refused> {
    check_register(cells, taps)?;
    check_chains(cells, masks)?;
    check_invert(masks.len() as u64, invert)?;
    check_limit(limit)?;
    check_slice_count(spec.len() as u64)?;
    check_slices(masks.len() as u64, spec, bits)?;
    check_stop(masks.len() as u64, stop_spec, stop_bits)?;
    let machine = Machine::new(cells, taps, limit, invert, masks, stop_spec, stop_bits);
    hand_out(&cut(&machine, spec, bits)?, out)
}

/// Encodes cubes of `depth` slices with the stop slice that `stop_slice` gives. Reading: its
/// steps count test slices, which are what is to come out; no slice is formed there, and
/// inversion plays no part in them. Returns the stop's specified positions, its bits and the
/// number of seeds, which stand first in `out`. Causes 1, 2 (the chains, or `invert`), 3 (the
/// limit, the depth, or the number of slices), 4, 6, 8, 9; on refusal `out` is as it was.
#[allow(clippy::too_many_arguments)]
pub fn encode_cubes(
    cells: u64,
    taps: u64,
    limit: u64,
    invert: u64,
    masks: &[u64],
    depth: u64,
    spec: &[u64],
    bits: &[u64],
    out: &mut [u64],
) -> Result<(u64, u64, usize), Refused> {
    check_register(cells, taps)?;
    check_chains(cells, masks)?;
    check_invert(masks.len() as u64, invert)?;
    check_limit(limit)?;
    check_cubes(depth, spec.len() as u64)?;
    check_slices(masks.len() as u64, spec, bits)?;
    let (stop_spec, stop_bits) = stop_slice(masks.len() as u64, spec, bits)?;
    let machine = Machine::new(cells, taps, limit, invert, masks, stop_spec, stop_bits);
    let count = hand_out(&cut(&machine, spec, bits)?, out)?;
    Ok((stop_spec, stop_bits, count))
}
