// State 0: its slices are all alike, so it shows the stop at once or never. As a seed it is refused by 11 or by 12, but as a last seed it delivers what is left, up to the limit. It covers no single window.

use super::all;
use crate::bench;
use crate::call::{refused, Call};
use crate::expands;
use crate::inputs::shaped;
use crate::library::{self, Answer, Like, SliceAnswer};
use crate::random::Random;
use crate::report::{same, Outcome};
use crate::seen::Seen;
use crate::spares::all_slices;

/// Lists of the seed 0: refused by 11 where the inverted chains show the stop. Otherwise it delivers what is left, up to the limit; more left or another seed behind it is 12.
fn lists(call: &Call) -> Outcome {
    let shown = second::shows(call.stop.0, call.stop.1, call.invert);
    let mut call = call.clone();
    for (total, ends) in [
        (1, true),
        (4, true),
        (256, true),
        (257, false),
        (2_048, false),
    ] {
        let known = match (shown, ends) {
            (true, _) => refused(11, 0),
            (_, true) => Ok(total),
            (_, false) => refused(12, 0),
        };
        (call.slices, call.seeds) = (total, vec![0]);
        let what = format!("the seed 0 of {call:x?}");
        let (mut theirs, mut ours) = ([9; 257], [9; 257]);
        same(&what, call.expand(&[0], &mut theirs), known)?;
        same(&what, call.expanded(&mut ours), Answer::like(known))?;
        let written = known.unwrap_or(0);
        let slices = [vec![call.invert; written], vec![9; 257 - written]].concat();
        same(&what, &ours[..], &slices[..])?;
        call.seeds = vec![0, 0];
        let known = refused(if shown { 11 } else { 12 }, 0);
        same(&what, call.expanded(&mut ours), Answer::like(known))?;
    }
    Ok(20)
}

/// Windows of all x: whatever seed they have singly, it is not 0. As sets they have the seed 0, unless it shows the stop.
fn windows(call: &Call) -> Outcome {
    let shown = second::shows(call.stop.0, call.stop.1, call.invert);
    for length in 1..=3 {
        let window = bench::all_x(call.clone(), length);
        let found = window.seed_of_window();
        if found.number == 0 && found.seed == 0 {
            return Err(format!("state 0 covers the window {window:x?}"));
        }
        let mut out = [9; 3];
        let found = window.encoded_set(&mut out);
        let by_0 = (found.number, found.value, out[0]) == (0, 1, 0);
        same(&format!("seed 0 for the set {window:x?}"), by_0, !shown)?;
    }
    Ok(6)
}

/// Registers of up to five cells and four chains, every mask and every stop slice.
fn every_mask() -> Outcome {
    let mut random = Random(86);
    let mut count = 0;
    for (round, chains) in (1..=4).cycle().take(40).enumerate() {
        let mut call = bench::all_x(shaped(&mut random, 1 + round % 5, chains), 1);
        call.seeds = vec![0];
        for invert in 0..=all(chains) {
            call.invert = invert;
            let slice = library::slice(call.machine(), 0);
            same("the slice of 0", slice, SliceAnswer::like(Ok(invert)))?;
            for stop in all_slices(chains).into_iter().filter(|stop| stop.0 != 0) {
                call.stop = stop;
                count += 1 + lists(&call)? + windows(&call)?;
            }
        }
    }
    Ok(count)
}

/// Register R with the stop 01 and the seed 0 behind the seed 5, which under these masks delivers 3, 6 and 1 slices. With chain 2 inverted state 0 shows the stop.
fn of_r() -> Outcome {
    let mut random = Random(87);
    let mut seen = Seen::default();
    let mut count = 0;
    for (invert, first) in [(0, 3), (2, 6), (3, 1)] {
        for (total, known) in [
            (first, refused(14, first)),
            (first + 1, Ok(first + 1)),
            (first + 256, Ok(first + 256)),
            (first + 257, refused(12, 1)),
        ] {
            let known = if invert == 2 { refused(11, 1) } else { known };
            let mut call = bench::all_x(bench::of_r("01", &[]), total);
            (call.invert, call.seeds) = (invert, vec![5, 0]);
            let answer = call.expand(&call.seeds, &mut [9; 300]);
            same("the seed 0 of R", answer, known)?;
            count += 1 + expands::compare(&mut random, &call, total, &mut seen)?;
        }
    }
    Ok(count)
}

/// State 0 as a seed and as a window's seed.
pub fn answers() -> Outcome {
    Ok(of_r()? + every_mask()?)
}
