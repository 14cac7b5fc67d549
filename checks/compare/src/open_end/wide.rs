// Long sets of wide registers whose last window does not close: the library against the second program, the last seed against the lowest states, and the list expanded again.

use crate::call::Call;
use crate::encodes::{compare_set, Met};
use crate::inputs::{any_stop, shaped};
use crate::random::Random;
use crate::report::{same, Outcome};
use crate::runs::alone;

/// Lower states that are tried one by one.
const LOWER: u64 = 2_000;

/// Slices from a random state on until just before the stop or until there are enough, with some of their bits.
fn run(random: &mut Random, call: &mut Call, most: usize, percent: u64) {
    let mut state = random.bits(call.cells);
    for _ in 0..most {
        let slice = call.slice_of(state);
        if second::shows(call.stop.0, call.stop.1, slice) {
            return;
        }
        let specified = random.sparse(call.masks.len(), percent);
        call.specified.push(specified);
        call.bits.push(slice & specified);
        state = second::step(call.cells as u64, call.taps, state);
    }
}

/// A set of up to so many slices; the last run of states is cut off before its stop.
fn any_set(random: &mut Random, most: usize) -> Call {
    let cells = [64, 64, 63, 48, 33, random.between(13, 64)][random.between(0, 5)];
    let chains = [64, random.between(8, 63)][random.between(0, 1)];
    let mut call = shaped(random, cells, chains);
    call.stop = any_stop(random, chains);
    call.limit = [256, random.between(1, 256)][random.between(0, 1)];
    (call.specified, call.bits) = (Vec::new(), Vec::new());
    let percent = [20, 50, 100][random.between(0, 2)];
    for _ in 0..40 {
        let left = (most - call.specified.len()).min(call.limit);
        run(random, &mut call, left, percent);
    }
    call.slices = call.specified.len();
    call
}

/// The library's seeds of a set, if it has any.
fn seeds(call: &Call) -> Option<Vec<u64>> {
    let mut seeds = vec![0; call.slices];
    let answer = call.encoded_set(&mut seeds);
    seeds.truncate(answer.value);
    (answer.number == 0).then_some(seeds)
}

/// Whether a state covers the slices from a place on as the last window of the set.
fn covers(call: &Call, start: usize, state: u64) -> bool {
    second::covers(
        call.cells as u64,
        call.taps,
        call.limit as u64,
        call.invert,
        &call.masks,
        call.stop.0,
        call.stop.1,
        &call.specified[start..],
        &call.bits[start..],
        state,
        false,
    )
}

/// The last window as a set of its own.
fn last_part(call: &Call, start: usize) -> Call {
    Call {
        specified: call.specified[start..].to_vec(),
        bits: call.bits[start..].to_vec(),
        slices: call.slices - start,
        ..call.clone()
    }
}

/// The last seed covers what the others leave, none of the lowest states does, and what is left has it as a set of its own too. The list was expanded by `compare_set`.
fn last_window(call: &Call, seeds: &[u64], met: &mut Met) -> Outcome {
    let (&last, before) = seeds.split_last().ok_or("no seeds")?;
    let length = |&seed: &u64| alone(call, seed).map_err(|number| format!("refused by {number}"));
    let start = before.iter().map(length).sum::<Result<usize, String>>()?;
    same("the last seed covers", covers(call, start, last), true)?;
    let lower = (0..last.min(LOWER)).find(|&state| covers(call, start, state));
    same("a lower state", lower, None)?;
    let own = self::seeds(&last_part(call, start));
    same("the seeds of the last window", own, Some(vec![last]))?;
    if last == 0 {
        met.sets.note("the last seed is 0");
    }
    if last >= LOWER {
        met.sets.note("a high last seed");
    }
    Ok(3)
}

/// Sets of up to 300 slices, and some of up to 2,048.
pub fn answers() -> Outcome {
    let mut random = Random(106);
    let mut met = Met::default();
    let mut count = 0;
    for round in 0..600 {
        let most = if round % 20 == 0 { 2_048 } else { 300 };
        let call = any_set(&mut random, most);
        if call.slices == 0 {
            continue;
        }
        count += compare_set(&mut random, &call, 3, &mut met)?;
        if let Some(seeds) = seeds(&call) {
            count += last_window(&call, &seeds, &mut met)
                .map_err(|why| format!("{why} of the set {call:x?}"))?;
        }
    }
    met.sets.require(&[
        "accepted, 64 cells",
        "refusal 9",
        "several seeds",
        "the last window does not close",
        "a high last seed",
        "the last seed is 0",
    ])?;
    Ok(count)
}
