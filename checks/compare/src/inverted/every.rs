// Every mask of up to four chains: slices, windows, sets, cubes and lists of small registers, against brute force and the model.

use super::{all, model, under};
use crate::bench;
use crate::call::{refused, Call};
use crate::encodes::{delivered, divide, Met};
use crate::expands;
use crate::inputs::{any_stop, fill, shaped, turn};
use crate::leaves;
use crate::library::{self, Like, SliceAnswer};
use crate::random::Random;
use crate::report::{same, Outcome};
use crate::runs::pool_of;
use crate::seen::Seen;
use crate::spares::all_slices;
use crate::window_limit::few;
use crate::window_limit::lists::small_lists;

/// How many chains have every mask tried.
const CHAINS: std::ops::RangeInclusive<usize> = 1..=4;

/// Slices of every state under every mask, by the library, the second program and the model; under two masks they differ where the masks do.
pub fn slices() -> Outcome {
    let mut random = Random(81);
    let mut count = 0;
    for round in 0..40 {
        for chains in CHAINS {
            let mut call = shaped(&mut random, 1 + round % 6, chains);
            for state in 0..1 << call.cells {
                call.invert = 0;
                let upright = model::slice(&call, state);
                for invert in 0..=all(chains) {
                    call.invert = invert;
                    let what = format!("the slice of {state:x} of {call:x?}");
                    let ours = library::slice(call.machine(), state);
                    let known = model::slice(&call, state);
                    same(&what, ours, SliceAnswer::like(Ok(known)))?;
                    same(&what, leaves::sliced(&call, state), Ok(known))?;
                    same(&what, known ^ upright, invert)?;
                    count += 3;
                }
            }
        }
    }
    Ok(count)
}

/// A set for a small register of so many chains: of any slices, or delivered.
fn any_set(random: &mut Random, chains: usize) -> Call {
    let cells = random.between(1, 5);
    let mut call = shaped(random, cells, chains);
    let percent = [10, 30, 60, 100][random.between(0, 3)];
    if random.one_in(3) {
        call.stop = any_stop(random, chains);
        let count = random.between(1, 8);
        fill(random, &mut call, count, percent);
    } else {
        call = delivered(random, call, percent, 12);
        if random.one_in(3) {
            turn(random, &mut call);
        }
    }
    divide(random, &mut call);
    call
}

/// What the second program must have met in sets and cubes.
const REQUIRED: [&str; 7] = [
    "accepted",
    "the last window closes",
    "the last window does not close",
    "several seeds",
    "8 with 0",
    "8 with some slices",
    "refusal 9",
];

/// Random windows, sets and cubes under every mask, against all states and all cuttings: the same set, and the set with its bits turned too.
pub fn random_sets() -> Outcome {
    let mut random = Random(82);
    let mut met = Met::default();
    let mut count = 0;
    for round in 0..120 {
        for chains in CHAINS {
            let call = any_set(&mut random, chains);
            for invert in 0..=all(chains) {
                let other = match round % 2 {
                    0 => under(&call, invert),
                    _ => Call {
                        invert,
                        ..call.clone()
                    },
                };
                count += few::compare(&mut random, other, &mut met)?;
            }
        }
    }
    met.sets.require(&REQUIRED)?;
    met.sets
        .require(&["refusal 7", "8 with all slices but one"])?;
    met.cubes.require(&REQUIRED)?;
    met.cubes
        .require(&["a window across cubes", "8 with all slices but one"])?;
    Ok(count)
}

/// Register R: every set of up to two slices with every stop slice under every mask, and of three under the mask 2.
pub fn every_small_set() -> Outcome {
    let mut met = Met::default();
    let masks = |length| match length {
        3 => vec![(256, 2)],
        _ => vec![(256, 1), (256, 2), (256, 3)],
    };
    let count = few::sets_of_r(&mut Random(83), masks, &mut met)?;
    met.sets.require(&REQUIRED)?;
    met.sets.require(&["8 with all slices but one"])?;
    met.cubes.require(&REQUIRED)?;
    Ok(count)
}

/// One list by the model, the second program and the library.
fn compare_list(random: &mut Random, call: &Call, seen: &mut Seen) -> Outcome {
    expands::compare_known(random, call, model::expanded(call), seen)
}

/// Lists of small registers under every mask, with the stop slice turned and as it was.
pub fn lists() -> Outcome {
    let mut random = Random(84);
    let mut seen = Seen::default();
    let mut count = 0;
    for round in 0..150 {
        for chains in CHAINS {
            let call = shaped(&mut random, 1 + round % 8, chains);
            let (mut call, total) = pool_of(&mut random, call).list(&mut random, 5);
            let any = random.between(0, total + 3);
            call.slices = [total, any][round % 2].clamp(1, 2_048);
            for invert in 0..=all(chains) {
                let same_stop = Call {
                    invert,
                    ..call.clone()
                };
                for list in [under(&call, invert), same_stop] {
                    count += compare_list(&mut random, &list, &mut seen)?;
                }
            }
        }
    }
    seen.require(&["accepted", "refusal 9", "refusal 11", "refusal 12"])?;
    seen.require(&["refusal 14"])?;
    Ok(count)
}

/// Register R with every list of one or two of its states and a number beyond, every stop slice, every mask, totals up to 8 and two limits.
pub fn every_small_list() -> Outcome {
    let mut random = Random(85);
    let mut seen = Seen::default();
    let mut count = 0;
    for seeds in small_lists() {
        for stop in all_slices(2).into_iter().filter(|stop| stop.0 != 0) {
            for (invert, limit) in [(0, 2), (1, 2), (2, 2), (3, 2), (1, 256), (2, 256), (3, 256)] {
                let mut call = bench::of_r("1x", &["xx"]);
                (call.stop, call.limit, call.invert) = (stop, limit, invert);
                call.seeds = seeds.clone();
                for total in 1..=8 {
                    call.slices = total;
                    count += compare_list(&mut random, &call, &mut seen)?;
                }
            }
        }
    }
    for name in ["accepted", "refusal 9", "refusal 10"] {
        seen.require(&[name])?;
    }
    seen.require(&["refusal 11", "refusal 12", "refusal 14"])?;
    Ok(count)
}

/// The seeds of document 01's sheet under each mask of R, and its starred windows and set under the mask 2, worked by hand.
pub fn examples() -> Outcome {
    let mut count = 0;
    let (sheet, _) = bench::sheet_set();
    for (invert, seeds) in [
        (0, &[3, 3][..]),
        (1, &[2, 6, 0]),
        (2, &[5, 1]),
        (3, &[4, 0]),
    ] {
        let call = Call {
            invert,
            ..sheet.clone()
        };
        let mut out = [9; 4];
        let answer = call.encoded_cubes(&mut out);
        same("the sheet", (answer.number, answer.value), (0, seeds.len()))?;
        same("its stop", (answer.specified, answer.bits), call.stop)?;
        same("its seeds", &out[..seeds.len()], seeds)?;
        count += 3;
    }
    for (slices, known) in [
        (&["10", "x1"][..], refused(7, 0)),
        (&["xx", "xx"], Ok(4)),
        (&["xx", "xx", "xx"], Ok(6)),
        (&["1x", "x1", "10", "00", "0x", "11"], Ok(5)),
    ] {
        let mut call = bench::of_r("01", slices);
        call.invert = 2;
        count += crate::windows::compare_known(&call, known, &mut Seen::default())?;
    }
    Ok(count)
}
