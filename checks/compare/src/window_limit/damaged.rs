// Random calls with up to four damages, at limits within the range and outside and under any mask of inverted chains: checks, windows, sets, cubes and lists by both programs.

use super::outside::{unjudged, OUTSIDE};
use crate::call::Call;
use crate::encodes::{compare_cubes, compare_set, small, Met};
use crate::expands;
use crate::inputs::{damage_set, fill, shaped};
use crate::leaves;
use crate::notes::{holding, Kind};
use crate::random::Random;
use crate::report::Outcome;
use crate::seen::Seen;
use crate::windows;
use second::Refused;

/// A limit: small, around the number of slices, at the upper end, or outside.
fn any_limit(random: &mut Random, slices: usize) -> usize {
    match random.below(6) {
        0 => OUTSIDE[random.between(0, OUTSIDE.len() - 1)],
        1 => random.between(255, 257),
        2 => random.between(slices.saturating_sub(1), slices + 1),
        _ => random.between(1, 8),
    }
}

/// Notes the refusals that the second program gives in the calls for a window, a set, cubes and a list, whether the limit is outside, and where 2 comes of the inverted chains alone.
fn note(call: &Call, seen: &mut Seen) {
    let told: [Result<(), Refused>; 4] = [
        call.window_seed().map(|_| ()),
        call.encode_set(&mut []).map(|_| ()),
        call.encode_cubes(&mut []).map(|_| ()),
        call.expand(&call.seeds, &mut []).map(|_| ()),
    ];
    let outside = second::check_limit(call.limit as u64).is_err();
    let place = if outside { "outside" } else { "within" };
    for (name, told) in ["window", "set", "cubes", "list"].iter().zip(told) {
        if let Err(refused) = told {
            seen.note(&format!("{name}, {}, {place}", refused.number));
            if refused.number == 2 && second::check_chains(call.cells as u64, &call.masks).is_ok() {
                seen.note(&format!("{name}, a mask beyond, {place}"));
            }
        }
    }
}

/// One call by both programs, unless it is long and searched: that would take long.
fn compare(random: &mut Random, call: &Call, met: &mut Met) -> Outcome {
    let long = call.specified.len() > 300 || call.cells > 12;
    let searched = |kind| holding(kind, call).is_empty();
    if long
        && [Kind::Window, Kind::Set, Kind::Cubes]
            .into_iter()
            .any(searched)
    {
        return Ok(0);
    }
    note(call, &mut met.sets);
    let mut count = leaves::compare_checks(call)?;
    count += windows::compare(call, &mut met.sets)?;
    count += compare_set(random, call, 3, met)?;
    count += compare_cubes(random, call, 3, met)?;
    count += expands::compare(random, call, 4, &mut met.sets)?;
    let state = random.bits(call.cells.saturating_add(1));
    count += unjudged(call, state).map_err(|why| format!("{why} of {call:x?}"))?;
    Ok(count)
}

/// What the second program must have answered, within the range and outside.
fn require(met: &Met) -> Result<(), String> {
    for name in ["window", "set", "cubes", "list"] {
        for number in 1..=3 {
            for place in ["within", "outside"] {
                met.sets.require(&[&format!("{name}, {number}, {place}")])?;
            }
        }
        for place in ["within", "outside"] {
            met.sets
                .require(&[&format!("{name}, a mask beyond, {place}")])?;
        }
    }
    met.sets.require(&["window, 7, within", "set, 8, within"])?;
    met.sets
        .require(&["cubes, 8, within", "list, 12, within"])?;
    met.sets.require(&["3 before 4", "3 before 5"])?;
    met.cubes.require(&["3 before 4"])
}

/// Calls of small registers, and of wide ones that are refused before a search.
pub fn answers() -> Outcome {
    let mut random = Random(65);
    let mut met = Met::default();
    let mut count = 0;
    for round in 0..12_000 {
        let mut call = small(&mut random, 8);
        if round % 4 == 3 {
            let (cells, chains) = (random.between(13, 64), random.between(1, 64));
            call = shaped(&mut random, cells, chains);
            fill(&mut random, &mut call, 1 + round % 20, 30);
        }
        call.limit = any_limit(&mut random, call.specified.len());
        for _ in 0..round % 5 {
            damage_set(&mut random, &mut call);
        }
        count += compare(&mut random, &call, &mut met)?;
    }
    require(&met)?;
    Ok(count)
}
