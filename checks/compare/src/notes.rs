// What a window or set is, and which causes hold for it, as names that a case can require.

use crate::call::Call;
use crate::seen::Seen;
use second::{Refused, GREATEST_DEPTH, MOST_SLICES};

/// What a call is for.
#[derive(Clone, Copy, PartialEq)]
pub enum Kind {
    Window,
    Set,
    Cubes,
}

/// Cause 3 by itself.
fn out_of_range(kind: Kind, call: &Call) -> bool {
    let count = call.specified.len();
    let lengths = match kind {
        Kind::Window => !(1..=call.limit).contains(&count),
        Kind::Set => !(1..=MOST_SLICES).contains(&count),
        Kind::Cubes => {
            !(1..=GREATEST_DEPTH).contains(&(call.depth as u64))
                || !(1..=MOST_SLICES).contains(&count)
                || !count.is_multiple_of(call.depth)
        }
    };
    lengths || second::check_limit(call.limit as u64).is_err()
}

/// Those of causes 1 to 5 that hold, each judged by itself. Where there is one, the second program doesn't search.
pub fn holding(kind: Kind, call: &Call) -> Vec<u64> {
    let (cells, chains) = (call.cells as u64, call.masks.len() as u64);
    let (positions, values) = call.stop;
    let beyond = second::check_invert(chains, call.invert).is_err();
    let holds = [
        second::check_register(cells, call.taps).is_err(),
        second::check_chains(cells, &call.masks).is_err() || beyond,
        out_of_range(kind, call),
        second::check_slices(chains, &call.specified, &call.bits).is_err(),
        kind != Kind::Cubes && second::check_stop(chains, positions, values).is_err(),
    ];
    (1..=5).filter(|&cause| holds[cause as usize - 1]).collect()
}

/// What is at a limit in a call, or out of the common.
fn shapes(call: &Call) -> Vec<&'static str> {
    let (cells, chains, masks) = (call.cells, call.masks.len(), &call.masks);
    let shapes = [
        (cells == 1, "1 cell"),
        (cells == 64, "64 cells"),
        (cells == 64 && call.taps == 1 << 63, "cell 63 alone tapped"),
        (chains == 1, "1 chain"),
        (chains == 64, "64 chains"),
        (masks.windows(2).any(|two| two[0] == two[1]), "equal masks"),
    ];
    let held = shapes.iter().filter(|(holds, _)| *holds);
    held.map(|(_, name)| *name).collect()
}

/// Notes the second program's answer, alone and with what is at a limit in the call; and of a refusal which later cause holds too.
pub fn note<T>(kind: Kind, call: &Call, told: &Result<T, Refused>, seen: &mut Seen) {
    seen.answer(told);
    let name = match told {
        Ok(_) => "accepted".to_string(),
        Err(refused) => format!("refusal {}", refused.number),
    };
    for shape in shapes(call) {
        seen.note(&format!("{name}, {shape}"));
    }
    if let Err(Refused { number, .. }) = told {
        for later in holding(kind, call).iter().filter(|later| *later > number) {
            seen.note(&format!("{number} before {later}"));
        }
    }
}
