// Small limits against brute force, which tries every state and every cutting: refused by 8 exactly where there is no cutting, and otherwise the fewest seeds.

use crate::bench;
use crate::call::Call;
use crate::encodes::{brute, compare_known, compare_known_cubes, small, Known, Met};
use crate::inputs::{lawful, thin};
use crate::notes::{holding, Kind};
use crate::random::Random;
use crate::report::{same, Outcome};
use crate::spares::{all_slices, numbered};
use crate::windows;

/// Notes where a set can be cut with a larger limit alone, and where it takes more seeds than with a larger one.
fn note(call: &Call, known: &Known, met: &mut Met) -> Result<(), String> {
    let free = brute(&Call {
        limit: 256,
        ..call.clone()
    })?;
    match (known, free) {
        (Err(_), Ok(_)) => met.sets.note("cut with a larger limit alone"),
        (Ok(few), Ok(free)) if few.len() > free.len() => met.sets.note("more seeds by the limit"),
        _ => {}
    }
    Ok(())
}

/// One call as a window, as a set and as cubes, with brute force's answers; which of these are lawful depends on the call.
pub fn compare(random: &mut Random, mut call: Call, met: &mut Met) -> Outcome {
    let told = call.brute_window().ok_or("too many cells")?;
    let mut count = windows::compare_known(&call, told, &mut met.sets)?;
    if holding(Kind::Set, &call).is_empty() {
        let known = brute(&call)?;
        note(&call, &known, met)?;
        count += compare_known(random, &call, known, met)?;
    }
    if let (true, Ok(stop)) = (holding(Kind::Cubes, &call).is_empty(), call.stop_slice()) {
        call.stop = stop;
        let known = brute(&call)?;
        count += compare_known_cubes(random, &call, known, met)?;
    }
    Ok(count)
}

/// What the second program must have met in sets and cubes at small limits.
const REQUIRED: [&str; 8] = [
    "accepted",
    "the last window closes",
    "the last window does not close",
    "several seeds",
    "8 with 0",
    "8 with some slices",
    "refusal 9",
    "a window as long as the limit",
];

/// What else there must be in sets, and in random cubes too.
const BUT_ONE: [&str; 1] = ["8 with all slices but one"];

/// Random sets of 1 to 5 cells at limits 1 to 4.
pub fn random_sets() -> Outcome {
    let mut random = Random(66);
    let mut met = Met::default();
    let mut count = 0;
    for round in 0..12_000 {
        let mut call = match round % 3 {
            0 => small(&mut random, 5),
            _ => lawful(&mut random, 5, 3, 10),
        };
        if round % 3 == 1 {
            thin(&mut random, &mut call);
        }
        call.limit = random.between(1, 4);
        count += compare(&mut random, call, &mut met)?;
    }
    met.sets.require(&REQUIRED)?;
    met.sets.require(&BUT_ONE)?;
    met.sets.require(&["refusal 3", "refusal 7"])?;
    met.sets
        .require(&["cut with a larger limit alone", "more seeds by the limit"])?;
    met.cubes.require(&REQUIRED)?;
    met.cubes.require(&BUT_ONE)?;
    Ok(count)
}

/// Register R: every set of up to three slices with every stop slice, with the limits and inverted chains that are named for its length.
/// Its last slice alone shows the stop or has a seed, so cubes are never refused by 8 with all slices but one.
pub fn sets_of_r(
    random: &mut Random,
    settings: impl Fn(usize) -> Vec<(usize, u64)>,
    met: &mut Met,
) -> Outcome {
    let slices = all_slices(2);
    let mut count = 0;
    for length in 1..=3 {
        for number in 0..slices.len().pow(length as u32) {
            let set = numbered(2, &slices, length, number);
            for &stop in slices.iter().filter(|stop| stop.0 != 0) {
                let mut call = bench::all_x(bench::of_r("1x", &[]), length);
                (call.specified, call.bits) = (set.specified.clone(), set.bits.clone());
                call.stop = stop;
                for (limit, invert) in settings(length) {
                    (call.limit, call.invert) = (limit, invert);
                    count += compare(random, call.clone(), met)?;
                }
            }
        }
    }
    Ok(count)
}

/// Register R: every such set at the limits 1, 2 and 3.
pub fn every_small_set() -> Outcome {
    let mut met = Met::default();
    let limits = |_| vec![(1, 0), (2, 0), (3, 0)];
    let count = sets_of_r(&mut Random(67), limits, &mut met)?;
    met.sets.require(&REQUIRED)?;
    met.sets.require(&BUT_ONE)?;
    met.cubes.require(&REQUIRED)?;
    Ok(count)
}

/// Limits that are no shorter than the set: the library's answer is that of 256.
pub fn beyond_the_set() -> Outcome {
    let mut random = Random(68);
    let mut count = 0;
    for _ in 0..2_000 {
        let mut call = lawful(&mut random, 6, 3, 12);
        thin(&mut random, &mut call);
        let length = call.specified.len();
        let told = call.encoded_set(&mut vec![0; length]);
        for limit in [length, length + 1, 255] {
            call.limit = limit;
            let answer = call.encoded_set(&mut vec![0; length]);
            same(&format!("the answer to {call:x?}"), answer, told)?;
            count += 1;
        }
    }
    Ok(count)
}
