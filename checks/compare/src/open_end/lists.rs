// Every short list of small registers with every total from 1 to a few more than its seeds deliver, at several limits, against the model.

use super::endings::Ended;
use crate::bench;
use crate::call::Call;
use crate::random::Random;
use crate::runs::alone;
use crate::seen::Seen;
use crate::spares::all_slices;

/// The totals that are tried: all up to a few more than the last seed may deliver and, with a large limit, those around it.
fn totals(call: &Call) -> Vec<usize> {
    let (last, before) = call.seeds.split_last().expect("a seed");
    let length = |seed: &u64| alone(call, *seed).unwrap_or(0);
    let sum: usize = before.iter().map(length).sum();
    let most = sum + length(last).min(8) + 3;
    let mut totals: Vec<usize> = (1..=most).collect();
    for left in [call.limit - 1, call.limit, call.limit + 1] {
        if sum + left > most {
            totals.push(sum + left);
        }
    }
    totals
}

/// The lists of so many seeds, of every state and one number beyond the register.
fn all_lists(cells: usize, count: u32) -> Vec<Vec<u64>> {
    let seeds = (1u64 << cells) + 1;
    let list = |mut number: u64| {
        let mut list = Vec::new();
        for _ in 0..count {
            list.push(number % seeds);
            number /= seeds;
        }
        list
    };
    (0..seeds.pow(count)).map(list).collect()
}

/// Every list of up to `most` seeds of a register, with every stop slice and every total.
fn every(
    random: &mut Random,
    register: &Call,
    most: u32,
    limits: &[usize],
    ended: &mut Ended,
    seen: &mut Seen,
) -> Result<(), String> {
    let stops = all_slices(register.masks.len());
    for count in 1..=most {
        for seeds in all_lists(register.cells, count) {
            for &stop in stops.iter().filter(|stop| stop.0 != 0) {
                for &limit in limits {
                    let mut call = register.clone();
                    (call.stop, call.limit, call.seeds) = (stop, limit, seeds.clone());
                    for total in totals(&call) {
                        call.slices = total;
                        ended.compare(random, &call, seen)?;
                    }
                }
            }
        }
    }
    Ok(())
}

/// Registers of 2 to 4 cells, with the most seeds of their lists and the limits.
fn registers() -> [(Call, u32, &'static [usize]); 5] {
    let r = bench::of_r("1x", &["xx"]);
    let other = |cells, taps, masks| Call {
        cells,
        taps,
        masks,
        ..r.clone()
    };
    let inverted = Call {
        invert: 2,
        ..r.clone()
    };
    [
        (other(2, 3, vec![1, 2]), 3, &[1, 2, 3]),
        (other(4, 9, vec![6]), 2, &[1, 4, 256]),
        (inverted, 2, &[1, 2, 256]),
        (r.clone(), 3, &[1, 2, 3]),
        (r, 2, &[5, 256]),
    ]
}

/// Every list of these registers.
pub fn every_small_list() -> Result<Ended, String> {
    let mut random = Random(103);
    let (mut ended, mut seen) = (Ended::default(), Seen::default());
    for (call, most, limits) in registers() {
        every(&mut random, &call, most, limits, &mut ended, &mut seen)?;
    }
    for number in [9, 10, 11, 12, 14] {
        seen.require(&[&format!("refusal {number}")])?;
    }
    seen.require(&["refusal 12, later, last", "refusal 12, first, last"])?;
    seen.require(&["refusal 12, first, not last"])?;
    ended.require_all()
}
