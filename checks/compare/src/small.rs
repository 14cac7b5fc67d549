// The second program's search against brute force, which tries every state and every cutting, on small random sets.

use crate::inputs::lawful;
use crate::random::Random;
use crate::report::{same, Outcome};
use second::Refused;

/// Thousands of sets: the count is the fewest over all cuttings, cause 8 carries the longest start, the seeds are the same.
pub fn sets() -> Outcome {
    let mut random = Random(6);
    let (mut count, mut cut) = (0, 0);
    for _ in 0..20_000 {
        let call = lawful(&mut random, 7, 3, 14);
        let mut out = vec![u64::MAX; call.slices];
        let ours = call.encode_set(&mut out);
        let brute = call.brute_set()?;
        match brute.fewest {
            Some(fewest) => {
                same(
                    &format!("the number of seeds of {call:x?}"),
                    ours,
                    Ok(fewest),
                )?;
                same(
                    &format!("the seeds of {call:x?}"),
                    &out[..fewest],
                    &brute.seeds[..],
                )?;
                cut += 1;
            }
            None => {
                let value = brute.longest_start as u64;
                same(
                    &format!("the refusal of {call:x?}"),
                    ours,
                    Err(Refused { number: 8, value }),
                )?;
            }
        }
        count += 1;
    }
    if cut < 500 || cut + 500 > count {
        return Err(format!(
            "{cut} of {count} sets can be cut: the sets tried are too much alike"
        ));
    }
    Ok(count)
}

/// Thousands of single windows: the lowest covering state, or refusal 7.
pub fn windows() -> Outcome {
    let mut random = Random(7);
    let mut count = 0;
    for _ in 0..20_000 {
        let call = lawful(&mut random, 9, 4, 10);
        same(
            &format!("the seed of {call:x?}"),
            Some(call.window_seed()),
            call.brute_window(),
        )?;
        count += 1;
    }
    Ok(count)
}

/// Accepted sets expanded again: the total is the set's, and each slice agrees with its test slice.
pub fn round_trips() -> Outcome {
    let mut random = Random(8);
    let mut count = 0;
    for _ in 0..10_000 {
        let call = lawful(&mut random, 12, 4, 20);
        let mut seeds = vec![0; call.slices];
        let Ok(number) = call.encode_set(&mut seeds) else {
            continue;
        };
        let mut slices = vec![0; call.slices];
        same(
            &format!("the total of {call:x?}"),
            call.expand(&seeds[..number], &mut slices),
            Ok(call.slices),
        )?;
        for (place, &slice) in slices.iter().enumerate() {
            let agrees = second::agrees(call.specified[place], call.bits[place], slice);
            same(&format!("slice {place} of {call:x?}"), agrees, true)?;
        }
        count += 1;
    }
    Ok(count)
}
