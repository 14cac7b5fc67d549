// The last window and the last seed at every limit: as long as the limit, shorter by one and longer by one. The answers are known: each chain reads a cell, so a state is known by its slice, and one state alone shows the stop.

use crate::call::{refused, Call};
use crate::encodes::{compare_known, Met};
use crate::expands;
use crate::random::Random;
use crate::report::{same, Outcome};
use crate::runs::walk;
use crate::seen::Seen;
use crate::windows;
use second::Refused;

/// The test slices become what the states so many steps before the stop deliver, with the number that is named for each, all bits specified.
fn deliver(call: &mut Call, states: &[u64], windows: &[(usize, usize)]) {
    (call.specified, call.bits) = (Vec::new(), Vec::new());
    for &(steps, length) in windows {
        for place in 0..length {
            call.specified.push(call.stop.0);
            call.bits.push(call.slice_of(states[steps - place]));
        }
    }
    call.slices = call.specified.len();
}

/// Sets whose last slices come from the state that stands farthest before the stop, alone and behind a window that closes. No window in between closes.
fn sets(random: &mut Random, call: &mut Call, states: &[u64], met: &mut Met) -> Outcome {
    let limit = call.limit;
    let far = states.len() - 1;
    let mut count = 0;
    for length in [limit - 1, limit, limit + 1] {
        if length == 0 {
            continue;
        }
        for first in [0, 1, limit] {
            let before = [(first, first)];
            let before = &before[..usize::from(first > 0)];
            deliver(call, states, &[before, &[(far, length)]].concat());
            let seeds: Vec<u64> = before.iter().map(|&(steps, _)| states[steps]).collect();
            let known = match length > limit {
                true => refused(8, first),
                false => Ok([seeds, vec![states[far]]].concat()),
            };
            count += compare_known(random, call, known, met)?;
        }
    }
    Ok(count)
}

/// The slices of such a last window as a single one: it does not close, so it has no seed.
fn single(call: &mut Call, states: &[u64], seen: &mut Seen) -> Outcome {
    let far = states.len() - 1;
    let mut count = 0;
    for length in [1, call.limit] {
        deliver(call, states, &[(far, length)]);
        count += windows::compare_known(call, refused(7, 0), seen)?;
    }
    Ok(count)
}

/// What must come of a list: `first` slices by the seeds before, the last seed so many steps before the stop, and so many slices left.
fn known(limit: usize, first: usize, steps: usize, left: usize) -> Result<usize, Refused> {
    let place = usize::from(first > 0);
    match left {
        0 => refused(14, first),
        left if left > limit && steps > limit => refused(12, place),
        left if steps < left => refused(14, first + steps),
        left => Ok(first + left),
    }
}

/// Lists whose last seed stands so many steps before the stop, with none left, one, and as many as the limit, fewer and more.
fn lists(random: &mut Random, call: &mut Call, states: &[u64], seen: &mut Seen) -> Outcome {
    let limit = call.limit;
    let mut count = 0;
    let distances = [1, limit - 1, limit, limit + 1, limit + 2];
    for &steps in distances
        .iter()
        .filter(|&&steps| steps > 0 && steps < states.len())
    {
        for first in [0, 1, limit] {
            for left in [0, 1, limit - 1, limit, limit + 1, limit + 2] {
                if first + left == 0 {
                    continue;
                }
                let before = &[states[first]][..usize::from(first > 0)];
                call.seeds = [before, &[states[steps]]].concat();
                call.slices = first + left;
                let answer = call.expand(&call.seeds, &mut [0; 600]);
                same("the last seed", answer, known(limit, first, steps, left))
                    .map_err(|why| format!("{why} of the list {call:x?}"))?;
                for room in [call.slices, call.slices - 1, 0] {
                    count += 1 + expands::compare(random, call, room, seen)?;
                }
            }
        }
    }
    Ok(count)
}

/// What must have been met at each limit.
const REQUIRED: [&str; 5] = [
    "accepted",
    "refusal 7",
    "refusal 8",
    "refusal 9",
    "the last window does not close",
];

/// Sets, windows and lists at every limit, for registers from 9 to 64 cells.
pub fn answers() -> Outcome {
    let mut random = Random(104);
    let mut count = 0;
    for limit in 1..=256 {
        let (mut met, mut seen) = (Met::default(), Seen::default());
        let cells = [9, 64, 10, 33, 12, 63, 16, 32, 31, 48][limit % 10];
        let (mut call, states) = walk(&mut random, cells);
        call.limit = limit;
        count += single(&mut call, &states, &mut met.sets)?;
        count += sets(&mut random, &mut call, &states, &mut met)?;
        count += lists(&mut random, &mut call, &states, &mut seen)?;
        met.sets.require(&REQUIRED)?;
        seen.require(&["accepted", "refusal 9", "refusal 14"])?;
        seen.require(&["refusal 12, first, last", "refusal 12, later, last"])?;
    }
    Ok(count)
}
