// Expanding at every limit: seeds whose stop first shows in the last slice that the limit allows, and one slice later.

use super::delivery::longest;
use super::LAWFUL;
use crate::bench;
use crate::call::{refused, Call};
use crate::expands::compare;
use crate::leaves;
use crate::random::Random;
use crate::report::{same, Outcome};
use crate::runs::walk;
use crate::seen::Seen;
use second::Refused;

/// A list, by how many steps before the stop each seed stands; what must come of it where the total is right and there is space.
type List = (Vec<usize>, Result<(), Refused>);

/// Lists with a seed whose stop shows at the limit or one slice later: alone, first, last and in between.
fn lists(limit: usize) -> Vec<List> {
    let (last, beyond) = (limit, limit + 1);
    vec![
        (vec![last], Ok(())),
        (vec![beyond], refused(12, 0)),
        (vec![last, 1], Ok(())),
        (vec![1, last], Ok(())),
        (vec![1, last, 1], Ok(())),
        (vec![last; 5], Ok(())),
        (vec![beyond, 1], refused(12, 0)),
        (vec![1, beyond], refused(12, 1)),
        (vec![1, beyond, 1], refused(12, 1)),
        (vec![last, last, beyond], refused(12, 2)),
        (vec![beyond, last, last], refused(12, 0)),
        (vec![beyond, 0], refused(12, 0)),
        (vec![0, beyond], refused(11, 0)),
        (vec![beyond, beyond], refused(12, 0)),
    ]
}

/// One list with its total and with others, and with enough space, one entry fewer and none.
fn compare_list(random: &mut Random, call: &mut Call, told: List, seen: &mut Seen) -> Outcome {
    let (steps, known) = told;
    let total: usize = steps.iter().sum();
    call.slices = total;
    let answer = call.expand(&call.seeds, &mut vec![0; total]);
    let known = known.map(|()| total);
    same("the second program's answer", answer, known)
        .map_err(|why| format!("{why} of the list {call:x?}"))?;
    let mut count = leaves::compare_checks(call)?;
    for room in [total, total - 1, 0] {
        count += compare(random, call, room, seen)?;
    }
    let before = total - steps.last().unwrap_or(&0);
    let near = [
        total - 1,
        total + 1,
        before,
        before + 1,
        before + call.limit,
    ];
    for wrong in near {
        call.slices = wrong;
        count += compare(random, call, wrong, seen)?;
    }
    Ok(count)
}

/// The lists at a limit, for a register with states that stand so many steps before its stop. Those that need a longer run are left out.
fn at(random: &mut Random, call: &Call, states: &[u64], seen: &mut Seen) -> Outcome {
    let mut call = bench::all_x(call.clone(), 1);
    let mut count = 0;
    for (steps, known) in lists(call.limit) {
        if steps.iter().all(|&steps| steps < states.len()) {
            call.seeds = steps.iter().map(|&steps| states[steps]).collect();
            count += compare_list(random, &mut call, (steps, known), seen)?;
        }
    }
    Ok(count)
}

/// What the second program must have answered to the lists of one limit.
const REQUIRED: [&str; 8] = [
    "accepted",
    "refusal 9",
    "refusal 11",
    "refusal 12, first, last",
    "refusal 12, first, not last",
    "refusal 12, later, not last",
    "refusal 12, later, last",
    "refusal 14",
];

/// Lists at every limit, for wide registers and, as far as their runs go, for small ones.
pub fn answers() -> Outcome {
    let mut random = Random(63);
    let mut count = 0;
    for limit in LAWFUL {
        let mut seen = Seen::default();
        for cells in [10, 16, 33, 64] {
            let (mut call, states) = walk(&mut random, cells);
            call.limit = limit;
            count += at(&mut random, &call, &states, &mut seen)?;
        }
        for cells in [3, 8, 20, 64] {
            let run = longest(&mut random, cells, limit);
            count += at(&mut random, &run.call, &run.states, &mut seen)?;
        }
        seen.require(&REQUIRED)
            .map_err(|why| format!("{why}, at the limit {limit}"))?;
    }
    Ok(count)
}

/// Every list of one or two of R's states and a number beyond.
pub fn small_lists() -> Vec<Vec<u64>> {
    let one = (0..=8).map(|seed| vec![seed]);
    let two = (0..81).map(|pair| vec![pair / 9, pair % 9]);
    one.chain(two).collect()
}

/// Register R with every list of one or two of its states and a number beyond, every stop slice, the limits 1 to 4, 0 and 257, and totals up to 8.
pub fn every_small_list() -> Outcome {
    let mut random = Random(64);
    let mut seen = Seen::default();
    let mut count = 0;
    let slices = crate::spares::all_slices(2);
    let lists = small_lists();
    for &stop in &slices {
        for limit in [1, 2, 3, 4, 0, 257] {
            for seeds in &lists {
                let mut call = bench::of_r("1x", &["xx"]);
                (call.stop, call.limit) = (stop, limit);
                call.seeds = seeds.clone();
                for total in 0..=8 {
                    call.slices = total;
                    count += compare(&mut random, &call, total, &mut seen)?;
                }
            }
        }
    }
    seen.require(&["accepted", "refusal 3", "refusal 5", "refusal 10"])?;
    seen.require(&["refusal 11", "refusal 12", "refusal 14"])?;
    Ok(count)
}
