// Holds the expanding of a seed list to slices.
// Follows document 01, "Covering and cutting" and "Refusal sheet", with document 02, R-3
// (the window limit stands where 256 stood in cause 12), R-4 (causes 11, 12 and 14 are
// judged on the slices as they come out, inverted chains included) and R-5 (the last seed
// ends when the total is reached).

use crate::check::{
    check_chains, check_invert, check_limit, check_register, check_slice_count, check_stop,
};
use crate::register::{low_bits, shows, slice, step};
use crate::{refuse, Refused, MOST_SLICES};

/// The slices of a seed before its first stop, which slice `limit` is the last to show. The
/// last seed has a number of slices left to deliver, `left`, and ends with these if no stop
/// comes before; what follows them does not matter. Causes 10, 11, 12 with the seed's place.
/// Reading: 10 and 11 hold for a last seed with nothing left too, since they are tested
/// before 14.
#[allow(clippy::too_many_arguments)]
fn run(
    cells: u64,
    taps: u64,
    limit: u64,
    invert: u64,
    masks: &[u64],
    stop: (u64, u64),
    seed: u64,
    place: usize,
    left: Option<u64>,
) -> Result<Vec<u64>, Refused> {
    if seed & !low_bits(cells) != 0 {
        return refuse(10, place as u64);
    }
    let mut slices = Vec::new();
    let mut state = seed;
    for t in 0..=limit {
        let here = slice(masks, invert, state);
        let stops = shows(stop.0, stop.1, here);
        if t == 0 && stops {
            return refuse(11, place as u64);
        }
        if stops || left == Some(t) {
            return Ok(slices);
        }
        slices.push(here);
        state = step(cells, taps, state);
    }
    refuse(12, place as u64)
}

/// Expands the seeds to `total` slices, which stand first in `out`; returns their number.
/// Causes 1, 2 (the chains, or `invert`), 3 (the limit, `total`, or the number of seeds), 5;
/// then the seeds by 10, 11, 12; then 14, 9. Cause 14 holds too when the last seed has nothing
/// left to deliver, also where the seeds before it give just `total`. On refusal `out` is as
/// it was.
#[allow(clippy::too_many_arguments)]
pub fn expand(
    cells: u64,
    taps: u64,
    limit: u64,
    invert: u64,
    masks: &[u64],
    stop_spec: u64,
    stop_bits: u64,
    total: u64,
    seeds: &[u64],
    out: &mut [u64],
) -> Result<usize, Refused> {
    check_register(cells, taps)?;
    check_chains(cells, masks)?;
    check_invert(masks.len() as u64, invert)?;
    check_limit(limit)?;
    check_slice_count(total)?;
    if seeds.len() > MOST_SLICES {
        return refuse(3, 0);
    }
    check_stop(masks.len() as u64, stop_spec, stop_bits)?;
    let stop = (stop_spec, stop_bits);
    let mut slices = Vec::new();
    let mut nothing_left = false;
    for (place, &seed) in seeds.iter().enumerate() {
        let last = place + 1 == seeds.len();
        let left = last.then(|| total.saturating_sub(slices.len() as u64));
        nothing_left = left == Some(0);
        slices.extend(run(
            cells, taps, limit, invert, masks, stop, seed, place, left,
        )?);
    }
    if nothing_left || slices.len() as u64 != total {
        return refuse(14, slices.len() as u64);
    }
    let Some(front) = out.get_mut(..slices.len()) else {
        return refuse(9, slices.len() as u64);
    };
    front.copy_from_slice(&slices);
    Ok(slices.len())
}
