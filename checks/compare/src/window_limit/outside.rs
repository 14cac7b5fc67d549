// Limits outside 1 to 256: cause 3 with 0 in each call with a window, a cutting or an expanding, and no entry of a buffer changed. Causes 1 and 2 come first; a step and a slice do not judge the limit.

use crate::bench;
use crate::call::{refused, Call};
use crate::leaves::{sliced, stepped};
use crate::library::{self, Answer, CubesAnswer, Like, SeedAnswer, SliceAnswer, StateAnswer};
use crate::report::{same, Outcome};

/// Limits outside, also those whose last 8, 16 or 32 bits are a lawful limit.
pub const OUTSIDE: [usize; 14] = [
    0,
    257,
    258,
    300,
    511,
    512,
    65_535,
    65_536,
    65_537,
    1 << 32,
    1 << 32 | 1,
    1 << 32 | 256,
    1 << 63,
    usize::MAX,
];

/// What a call leaves of a buffer of so many entries: as it was.
fn untouched<A>(room: usize, call: impl FnOnce(&mut [u64]) -> A) -> Result<A, String> {
    let mut buffer = vec![0x55; room];
    let answer = call(&mut buffer);
    same("the buffer", buffer, vec![0x55; room])?;
    Ok(answer)
}

/// The second program's calls, all refused by one number with 0.
fn all_told(call: &Call, number: u64) -> Outcome {
    let told = [
        call.window_seed().map(|_| 0),
        call.encode_set(&mut []),
        call.encode_cubes(&mut []).map(|_| 0),
        call.expand(&call.seeds, &mut []),
    ];
    same("the second program", told, [refused(number, 0); 4])?;
    Ok(4)
}

/// The eight calls that judge the limit, all refused by one number with 0, with so many entries lent.
fn all_refused(call: &Call, room: usize, number: u64) -> Outcome {
    let checks = [
        call.check_window(),
        call.check_set(),
        call.check_cubes(),
        call.check_list(),
    ];
    same("the checks", checks, [number as usize; 4])?;
    let set = untouched(room, |out| call.encoded_set(out))?;
    same("the set", set, Answer::like(refused(number, 0)))?;
    let cubes = untouched(room, |out| call.encoded_cubes(out))?;
    same("the cubes", cubes, CubesAnswer::like(refused(number, 0)))?;
    let list = untouched(room, |out| call.expanded(out))?;
    same("the list", list, Answer::like(refused(number, 0)))?;
    let seed = SeedAnswer::like(refused(number, 0));
    same("the window", call.seed_of_window(), seed)?;
    Ok(8)
}

/// A fault of a call, and the number by which all these calls refuse it beside what is outside.
pub type Fault = (fn(&mut Call), u64);

/// Faults of the register and of the chains, which come first or are refused by the same number.
pub const EARLIER: [Fault; 8] = [
    (|call| call.cells = 0, 1),
    (|call| call.cells = 65, 1),
    (|call| call.taps = 3, 1),
    (|call| call.taps = 14, 1),
    (|call| call.masks.clear(), 2),
    (|call| call.masks.resize(65, 1), 2),
    (|call| call.masks[1] = 0, 2),
    (|call| call.masks[0] = 8, 2),
];

/// No fault, and faults that come after the limit.
const LATER: [Fault; 4] = [
    (|_| {}, 3),
    (|call| call.bits[0] = 7, 3),
    (|call| call.stop = (0, 0), 3),
    (|call| call.bits.truncate(3), 3),
];

/// All calls, by the second program and by the library with several buffers, refused by one number with 0.
pub fn refused_by(call: &Call, number: u64) -> Outcome {
    let mut count = all_told(call, number)?;
    for room in [0, 1, 2, 8] {
        count += all_refused(call, room, number)?;
    }
    Ok(count)
}

/// Document 01's sheet as a call with its list.
pub fn sheet_with_list() -> Result<Call, String> {
    let (mut call, seeds) = bench::sheet_set();
    call.seeds = seeds.map_err(|refused| format!("{refused:?}"))?;
    Ok(call)
}

/// A call with each of the earlier faults and of these.
pub fn with_faults(call: &Call, later: &[Fault], compare: fn(&Call, u64) -> Outcome) -> Outcome {
    let mut count = 0;
    for (fault, number) in EARLIER.iter().chain(later) {
        let mut call = call.clone();
        fault(&mut call);
        count += compare(&call, *number).map_err(|why| format!("{why} of {call:x?}"))?;
    }
    Ok(count)
}

/// A step and a slice of a state, at any limit.
pub fn unjudged(call: &Call, state: u64) -> Outcome {
    let ours = library::step(call.settings(), state);
    same("the step", ours, StateAnswer::like(stepped(call, state)))?;
    let ours = library::slice(call.machine(), state);
    same("the slice", ours, SliceAnswer::like(sliced(call, state)))?;
    Ok(2)
}

/// All calls that judge the limit are refused; steps and slices are not.
fn compare(call: &Call, number: u64) -> Outcome {
    let mut count = refused_by(call, number)?;
    for state in 0..=8 {
        count += unjudged(call, state)?;
    }
    Ok(count)
}

/// Document 01's sheet as a call with its list, at each limit outside and with each fault.
pub fn answers() -> Outcome {
    let mut call = sheet_with_list()?;
    let mut count = 0;
    for limit in OUTSIDE {
        call.limit = limit;
        count += with_faults(&call, &LATER, compare)?;
    }
    Ok(count)
}
