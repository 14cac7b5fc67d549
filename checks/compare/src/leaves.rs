// The proved leaves against the second program: step and slice with their refusals, and the checks behind causes 1 to 5.

use crate::call::{refused, Call};
use crate::inputs::{damage, lawful};
use crate::library::{self, Like, SliceAnswer, StateAnswer};
use crate::random::Random;
use crate::report::{same, Outcome};
use crate::seen::Seen;
use second::{check_chains, check_invert, check_register, Refused};

/// Cause 10 of a state: it is the one seed that is handed in, so its place is 0.
fn check_state(cells: usize, state: u64) -> Result<(), Refused> {
    if cells < 64 && state >> cells != 0 {
        return refused(10, 0);
    }
    Ok(())
}

/// The state after one step by the second program: cause 1, then 10.
pub fn stepped(call: &Call, state: u64) -> Result<u64, Refused> {
    check_register(call.cells as u64, call.taps)?;
    check_state(call.cells, state)?;
    Ok(second::step(call.cells as u64, call.taps, state))
}

/// The slice of a state by the second program: causes 1 and 2, then 10.
pub fn sliced(call: &Call, state: u64) -> Result<u64, Refused> {
    check_register(call.cells as u64, call.taps)?;
    check_chains(call.cells as u64, &call.masks)?;
    check_invert(call.masks.len() as u64, call.invert)?;
    check_state(call.cells, state)?;
    Ok(call.slice_of(state))
}

/// A state of the call's cells; one time in eight any word.
fn any_state(random: &mut Random, call: &Call) -> u64 {
    match random.below(8) {
        0 => random.word(),
        _ => random.bits(call.cells),
    }
}

/// Steps of registers of 1 to 64 cells, ten in a row, and of damaged ones.
pub fn steps() -> Outcome {
    let mut random = Random(1);
    let (mut count, mut seen) = (0, Seen::default());
    for round in 0..20_000 {
        let mut call = lawful(&mut random, 64, 1, 1);
        for _ in 0..round % 4 {
            damage(&mut random, &mut call);
        }
        let mut state = any_state(&mut random, &call);
        for _ in 0..10 {
            let told = stepped(&call, state);
            let ours = library::step(call.settings(), state);
            let what = format!("step from {state:x} of {call:x?}");
            same(&what, ours, StateAnswer::like(told))?;
            seen.answer(&told);
            state = told.unwrap_or(state);
            count += 1;
        }
    }
    seen.require(&["accepted", "refusal 1", "refusal 10"])?;
    Ok(count)
}

/// Slices of random states under 1 to 64 masks, and of damaged calls.
pub fn slices() -> Outcome {
    let mut random = Random(2);
    let (mut count, mut seen) = (0, Seen::default());
    for round in 0..50_000 {
        let mut call = lawful(&mut random, 64, 64, 1);
        for _ in 0..round % 4 {
            damage(&mut random, &mut call);
        }
        let state = any_state(&mut random, &call);
        let told = sliced(&call, state);
        let ours = library::slice(call.machine(), state);
        let what = format!("slice of {state:x} of {call:x?}");
        same(&what, ours, SliceAnswer::like(told))?;
        seen.answer(&told);
        count += 1;
    }
    seen.require(&["accepted", "refusal 1", "refusal 2", "refusal 10"])?;
    Ok(count)
}

/// The number of a refusal by one of causes 1 to 5, or 0.
fn number<T>(answer: Result<T, Refused>) -> usize {
    match answer {
        Err(refused) if refused.number <= 5 => refused.number as usize,
        _ => 0,
    }
}

/// The five checks of one call.
pub fn compare_checks(call: &Call) -> Outcome {
    same(
        &format!("check of the window {call:x?}"),
        call.check_window(),
        number(call.window_seed()),
    )?;
    same(
        &format!("check of the set {call:x?}"),
        call.check_set(),
        number(call.encode_set(&mut [])),
    )?;
    same(
        &format!("check of the cubes {call:x?}"),
        call.check_cubes(),
        number(call.encode_cubes(&mut [])),
    )?;
    same(
        &format!("check for a stop slice {call:x?}"),
        call.check_stop(),
        number(call.stop_slice()),
    )?;
    same(
        &format!("check of the list {call:x?}"),
        call.check_list(),
        number(call.expand(&call.seeds, &mut [])),
    )?;
    Ok(5)
}

/// The checks on small lawful calls, and on calls with one to three damaged parts.
pub fn checks() -> Outcome {
    let mut random = Random(4);
    let mut count = 0;
    for round in 0..8_000 {
        let mut call = lawful(&mut random, 8, 5, 8);
        for _ in 0..round % 4 {
            damage(&mut random, &mut call);
        }
        count += compare_checks(&call)?;
    }
    Ok(count)
}

/// Whether the second program refuses the register, the chains, the inverted ones or the test slices: then none of its calls searches.
fn refused_unsearched(call: &Call) -> bool {
    check_register(call.cells as u64, call.taps).is_err()
        || check_chains(call.cells as u64, &call.masks).is_err()
        || check_invert(call.masks.len() as u64, call.invert).is_err()
        || second::check_slices(call.masks.len() as u64, &call.specified, &call.bits).is_err()
}

/// The checks of damaged calls for wide registers and many chains.
pub fn wide_checks() -> Outcome {
    let mut random = Random(5);
    let mut count = 0;
    while count < 20_000 {
        let mut call = lawful(&mut random, 64, 64, 40);
        damage(&mut random, &mut call);
        damage(&mut random, &mut call);
        if refused_unsearched(&call) {
            count += compare_checks(&call)?;
        }
    }
    Ok(count)
}
