// Sets of 64 cells, from few chains to 64 and from few bits to all: the library against the second program.

use crate::call::Call;
use crate::encodes::{compare_cubes, compare_set, delivered, divide, Met};
use crate::inputs::{any_stop, fill, searched, shaped};
use crate::random::Random;
use crate::report::Outcome;

/// A set for 64 cells and so many chains: of any slices, or delivered.
/// With less than a bit a slice a long window can need a long search, so there are few slices then.
pub fn set(random: &mut Random, chains: usize, percent: u64) -> Call {
    let sparse = chains as u64 * percent < 100;
    let most = if sparse { 40 } else { 300 };
    let mut call = shaped(random, 64, chains);
    if random.one_in(2) {
        call.stop = any_stop(random, chains);
        let count = random.between(1, most);
        fill(random, &mut call, count, percent);
    } else {
        call = delivered(random, call, percent, most);
    }
    divide(random, &mut call);
    call
}

/// What the second program must have met in sets and cubes of 64 cells.
const REQUIRED: [&str; 11] = [
    "accepted, 1 chain",
    "accepted, 64 chains",
    "accepted, cell 63 alone tapped",
    "accepted, equal masks",
    "refusal 8, 64 chains",
    "refusal 8, cell 63 alone tapped",
    "refusal 8, equal masks",
    "refusal 9",
    "8 with 0",
    "8 with some slices",
    "several seeds",
];

/// Sets of 64 cells, from few chains to 64 and from few bits to all, some of 2,047 and 2,048 slices, and sets that need a search.
pub fn answers() -> Outcome {
    let mut random = Random(19);
    let mut met = Met::default();
    let mut count = 0;
    for chains in [1, 2, 3, 4, 8, 12, 16, 20, 32, 48, 63, 64] {
        for percent in [2, 5, 10, 30, 60, 100] {
            for _ in 0..20 {
                let call = set(&mut random, chains, percent);
                count += compare_set(&mut random, &call, 5, &mut met)?;
                count += compare_cubes(&mut random, &call, 5, &mut met)?;
            }
        }
    }
    for (chains, percent) in [(20, 30), (32, 10), (48, 60), (64, 5), (64, 30)] {
        for length in [2_047, 2_048] {
            let mut call = shaped(&mut random, 64, chains);
            fill(&mut random, &mut call, length, percent);
            count += compare_cubes(&mut random, &call, 2, &mut met)?;
        }
    }
    for _ in 0..200 {
        let call = searched(&mut random, 60);
        count += compare_set(&mut random, &call, 2, &mut met)?;
        count += compare_cubes(&mut random, &call, 2, &mut met)?;
    }
    met.sets.require(&REQUIRED)?;
    met.sets.require(&["refusal 8, 1 chain"])?;
    met.cubes.require(&REQUIRED)?;
    met.cubes.require(&["refusal 6", "a window across cubes"])?;
    Ok(count)
}
