// The library's own answers as the limit grows from 1 to 256: what can be cut stays so, with never more seeds; the start that can be cut never gets shorter; a list that is accepted stays so, with the same slices.

use super::delivery::longest;
use super::LAWFUL;
use crate::bench;
use crate::call::Call;
use crate::encodes::small;
use crate::inputs::{lawful, thin};
use crate::library::Answer;
use crate::notes::{holding, Kind};
use crate::random::Random;
use crate::report::Outcome;
use crate::runs::walk;
use crate::seen::Seen;
use crate::wide;

/// Whether an answer may follow another as the limit grows: refused by 8 with never fewer slices, then accepted with never more seeds.
fn may_follow(before: Answer, now: Answer) -> bool {
    match (before.number, now.number) {
        (8, 8) => before.value <= now.value,
        (8, 0) => true,
        (0, 0) => before.value >= now.value,
        _ => false,
    }
}

/// The answers in a row of limits, each after the one before.
fn follow(answers: &[Answer], call: &Call, seen: &mut Seen) -> Outcome {
    for (place, pair) in answers.windows(2).enumerate() {
        let (before, now) = (pair[0], pair[1]);
        if !may_follow(before, now) {
            let limit = place + 1;
            return Err(format!(
                "{before:?} at the limit {limit} and {now:?} at the next, of {call:x?}"
            ));
        }
        if before.number == 8 && now.number == 0 {
            seen.note("cut from some limit on");
        }
        if before.number == 8 && now.number == 8 && before.value < now.value {
            seen.note("a longer start");
        }
        if before.number == 0 && before.value > now.value {
            seen.note("fewer seeds");
        }
    }
    Ok(answers.len())
}

/// One set with its stop slice and as cubes at every limit.
fn sets(call: &Call, seen: &mut Seen) -> Outcome {
    let mut call = call.clone();
    let mut buffer = vec![0; call.specified.len()];
    let (mut as_set, mut as_cubes) = (Vec::new(), Vec::new());
    for limit in LAWFUL {
        call.limit = limit;
        as_set.push(call.encoded_set(&mut buffer));
        let told = call.encoded_cubes(&mut buffer);
        let (number, value) = (told.number, told.value);
        as_cubes.push(Answer { number, value });
    }
    let mut count = follow(&as_set, &call, seen)?;
    if as_cubes[0].number != 6 {
        count += follow(&as_cubes, &call, seen)?;
    }
    Ok(count)
}

/// One list at every limit: refused by 12 up to some limit, and from there on as it is at 256, whatever its total.
fn lists(call: &Call, seen: &mut Seen) -> Outcome {
    let mut call = call.clone();
    let expand = |call: &Call| {
        let mut slices = vec![0; call.slices];
        (call.expanded(&mut slices), slices)
    };
    call.limit = 256;
    let last = expand(&call);
    let mut accepted = false;
    for limit in LAWFUL {
        call.limit = limit;
        let now = expand(&call);
        if now == last {
            accepted = true;
        } else if accepted || now.0.number != 12 {
            return Err(format!("{:?} against {:?} of {call:x?}", now.0, last.0));
        } else {
            seen.note("expanded from some limit on");
        }
    }
    Ok(256)
}

/// A set whose slices are searched quickly: small, wide, delivered, or of all x.
fn any_set(random: &mut Random, round: usize) -> Call {
    match round % 6 {
        0 => lawful(random, 8, 4, 30),
        1 => {
            let mut call = lawful(random, 12, 4, 40);
            thin(random, &mut call);
            call
        }
        2 => small(random, 12),
        3 => wide::set(random, 12, 60),
        4 => {
            let cells = [8, 16, 33, 64][random.between(0, 3)];
            let run = longest(random, cells, 256);
            run.deliver(random, 200, 40)
        }
        _ => {
            let (cells, length) = (random.between(9, 16), random.between(1, 150));
            bench::all_x(walk(random, cells).0, length)
        }
    }
}

/// A list of up to seven seeds that run into the stop, for a register of 9 to 64 cells; every second has any total up to a few more than theirs.
fn any_list(random: &mut Random, round: usize) -> Call {
    let run = longest(random, 9 + round % 56, 256);
    let mut call = bench::all_x(run.call.clone(), 0);
    for _ in 0..random.between(1, 7) {
        let steps = random.between(0, run.most());
        call.seeds.push(run.states[steps]);
        call.slices += steps;
    }
    if random.one_in(2) {
        call.slices = random.between(1, call.slices + 5).min(2_048);
    }
    call
}

/// Sets and lists at every limit.
pub fn answers() -> Outcome {
    let mut random = Random(69);
    let mut seen = Seen::default();
    let mut count = 0;
    for round in 0..180 {
        let mut call = any_set(&mut random, round);
        call.depth = 1;
        if holding(Kind::Set, &call).is_empty() {
            count += sets(&call, &mut seen)?;
        }
        count += lists(&any_list(&mut random, round), &mut seen)?;
    }
    seen.require(&["cut from some limit on", "a longer start", "fewer seeds"])?;
    seen.require(&["expanded from some limit on"])?;
    Ok(count)
}
