// The stop slice steps look at the test slices as they are written: cubes have the same stop slice under every mask, and the seeds of the set with that stop slice.

use super::all;
use crate::call::Call;
use crate::encodes::small;
use crate::library;
use crate::notes::{holding, Kind};
use crate::random::Random;
use crate::report::{same, Outcome};
use crate::seen::Seen;

/// One set as cubes under a mask, against its stop slice and its seeds with that stop slice.
fn compare(call: &Call, seen: &mut Seen) -> Outcome {
    let stop = library::stop(call.masks.len(), &call.specified, &call.bits);
    let mut out = vec![0x55; call.specified.len()];
    let cubes = call.encoded_cubes(&mut out);
    seen.note(&format!("cubes, {}", cubes.number));
    if stop.number != 0 {
        same("the cubes", cubes.number, stop.number)?;
        return Ok(1);
    }
    let set = Call {
        stop: (stop.specified, stop.bits),
        ..call.clone()
    };
    let mut seeds = vec![0x55; call.specified.len()];
    let answer = set.encoded_set(&mut seeds);
    same(
        "the answer",
        (cubes.number, cubes.value),
        (answer.number, answer.value),
    )?;
    same("the seeds", out, seeds)?;
    let told = match cubes.number {
        0 => (stop.specified, stop.bits),
        _ => (0, 0),
    };
    same("the stop slice", (cubes.specified, cubes.bits), told)?;
    Ok(3)
}

/// Small sets under none, all, one and any of their chains inverted.
pub fn answers() -> Outcome {
    let mut random = Random(90);
    let mut seen = Seen::default();
    let mut count = 0;
    for _ in 0..6_000 {
        let mut call = small(&mut random, 8);
        let chains = call.masks.len();
        let one = 1 << random.between(0, chains - 1);
        for invert in [0, all(chains), one, random.bits(chains)] {
            call.invert = invert;
            if holding(Kind::Cubes, &call).is_empty() {
                count += compare(&call, &mut seen).map_err(|why| format!("{why} of {call:x?}"))?;
            }
        }
    }
    seen.require(&["cubes, 0", "cubes, 6", "cubes, 8"])?;
    Ok(count)
}
