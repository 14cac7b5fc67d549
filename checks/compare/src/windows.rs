// The library's seeds of single windows against the second program's, and for small registers against brute force.

use crate::bench;
use crate::call::{refused, Call};
use crate::inputs::{damage_set, lawful, searched, shaped, thin, turn};
use crate::library::{Like, SeedAnswer};
use crate::notes::{holding, note, Kind};
use crate::random::Random;
use crate::report::{same, Outcome};
use crate::runs::{deliver, pool_of, walk};
use crate::seen::Seen;
use second::Refused;

/// One window.
pub fn compare(call: &Call, seen: &mut Seen) -> Outcome {
    let told = call.window_seed();
    note(Kind::Window, call, &told, seen);
    if told.is_ok_and(|seed| seed >> 63 == 1) {
        seen.note("a seed with cell 63 set");
    }
    let ours = call.seed_of_window();
    same("the seed", ours, SeedAnswer::like(told))
        .map_err(|why| format!("{why} of the window {call:x?}"))?;
    Ok(1)
}

/// One window whose answer is known.
pub fn compare_known(call: &Call, known: Result<u64, Refused>, seen: &mut Seen) -> Outcome {
    same("the second program's seed", call.window_seed(), known)
        .map_err(|why| format!("{why} of the window {call:x?}"))?;
    compare(call, seen)
}

/// Document 01's windows.
pub fn examples() -> Outcome {
    let mut seen = Seen::default();
    let mut count = 0;
    for (call, known) in [bench::starred_windows(), bench::limit_windows()].concat() {
        count += compare_known(&call, known, &mut seen)?;
    }
    Ok(count)
}

/// Whether a state agrees with the window and shows the stop after it, whatever it shows before.
fn fits(call: &Call, state: u64) -> bool {
    let mut now = state;
    for (&specified, &bits) in call.specified.iter().zip(&call.bits) {
        if !second::agrees(specified, bits, call.slice_of(now)) {
            return false;
        }
        now = second::step(call.cells as u64, call.taps, now);
    }
    second::shows(call.stop.0, call.stop.1, call.slice_of(now))
}

/// Notes where states fit that show the stop early, and how long a covered window is.
fn note_early(call: &Call, told: Result<u64, Refused>, seen: &mut Seen) {
    match told {
        Ok(seed) => {
            if (0..seed).any(|state| fits(call, state)) {
                seen.note("a lower state fits and shows the stop early");
            }
            if call.specified.len() > 64 {
                seen.note("a covered window of more than 64 slices");
            }
        }
        Err(Refused { number: 7, .. }) => {
            if (0..1 << call.cells).any(|state| fits(call, state)) {
                seen.note("each state that fits shows the stop early");
            }
        }
        Err(_) => {}
    }
}

/// A window as a state delivers it, with some of its bits, or with one of them turned.
fn delivered(random: &mut Random, call: Call) -> Call {
    let (mut call, _) = pool_of(random, call).list(random, 1);
    let percent = [2, 5, 10, 30, 60, 100][random.between(0, 5)];
    deliver(random, &mut call, percent);
    if random.one_in(3) {
        turn(random, &mut call);
    }
    call
}

/// A window of a register of up to 12 cells: of any slices, of few bits, or delivered.
fn small(random: &mut Random) -> Call {
    let (cells, chains) = (random.between(1, 12), random.between(1, 6));
    match random.below(4) {
        0 => lawful(random, 12, 6, 10),
        1 => {
            let mut call = lawful(random, 12, 6, 20);
            thin(random, &mut call);
            call
        }
        _ => {
            let call = shaped(random, cells, chains);
            delivered(random, call)
        }
    }
}

/// Windows of up to 12 cells: the lowest of all states that cover, or refusal 7.
pub fn against_brute_force() -> Outcome {
    let mut random = Random(13);
    let mut seen = Seen::default();
    let mut count = 0;
    for _ in 0..30_000 {
        let call = small(&mut random);
        let told = call.window_seed();
        same("the second program's seed", Some(told), call.brute_window())
            .map_err(|why| format!("{why} of the window {call:x?}"))?;
        note_early(&call, told, &mut seen);
        count += compare(&call, &mut seen)?;
    }
    seen.require(&[
        "accepted",
        "refusal 7",
        "refusal 7, 1 cell",
        "accepted, 1 chain",
        "accepted, equal masks",
        "a lower state fits and shows the stop early",
        "each state that fits shows the stop early",
        "a covered window of more than 64 slices",
    ])?;
    Ok(count)
}

/// A delivered window of a wide register.
fn wide(random: &mut Random) -> Call {
    let cells = [64, 63, 33, random.between(13, 64)][random.between(0, 3)];
    let chains = [1, 64, random.between(2, 63)][random.between(0, 2)];
    let call = shaped(random, cells, chains);
    delivered(random, call)
}

/// Windows at the limits of length: of all x, as delivered, and with a bit turned. The stop leaves one state for each length.
fn at_limits(random: &mut Random, cells: usize, seen: &mut Seen) -> Outcome {
    let (call, states) = walk(random, cells);
    let mut count = 0;
    for length in [0, 257, 258, 2_048, 2_049] {
        let window = bench::all_x(call.clone(), length);
        count += compare_known(&window, refused(3, 0), seen)?;
    }
    for length in [1, 2, 3, 128, 254, 255, 256] {
        let mut window = bench::all_x(call.clone(), length);
        count += compare_known(&window, Ok(states[length]), seen)?;
        window.seeds = vec![states[length]];
        deliver(random, &mut window, 100);
        count += compare_known(&window, Ok(states[length]), seen)?;
        turn(random, &mut window);
        count += compare_known(&window, refused(7, 0), seen)?;
    }
    Ok(count)
}

/// What the second program must have answered: also with two causes at once, and where something is at its limit.
const REQUIRED: [&str; 26] = [
    "accepted",
    "refusal 1",
    "refusal 2",
    "refusal 3",
    "refusal 4",
    "refusal 5",
    "refusal 7",
    "1 before 2",
    "1 before 3",
    "1 before 4",
    "1 before 5",
    "2 before 3",
    "2 before 4",
    "2 before 5",
    "3 before 4",
    "3 before 5",
    "4 before 5",
    "accepted, 64 cells",
    "accepted, cell 63 alone tapped",
    "accepted, 1 chain",
    "accepted, 64 chains",
    "accepted, equal masks",
    "refusal 7, 64 cells",
    "refusal 7, cell 63 alone tapped",
    "refusal 7, equal masks",
    "a seed with cell 63 set",
];

/// Windows of small and wide registers, whole and with up to three damages, windows that need a search, and windows at the limits.
pub fn answers() -> Outcome {
    let mut random = Random(14);
    let mut seen = Seen::default();
    let mut count = 0;
    for round in 0..20_000 {
        let mut call = small(&mut random);
        for _ in 0..round % 4 {
            damage_set(&mut random, &mut call);
        }
        count += compare(&call, &mut seen)?;
    }
    for round in 0..10_000 {
        let mut call = wide(&mut random);
        for _ in 0..round % 3 {
            damage_set(&mut random, &mut call);
        }
        // a window made longer may need a long search
        if round % 3 == 0 || !holding(Kind::Window, &call).is_empty() {
            count += compare(&call, &mut seen)?;
        }
    }
    for _ in 0..1_000 {
        count += compare(&searched(&mut random, 50), &mut seen)?;
    }
    for cells in [9, 10, 16, 31, 32, 33, 63, 64] {
        count += at_limits(&mut random, cells, &mut seen)?;
    }
    seen.require(&REQUIRED)?;
    Ok(count)
}
