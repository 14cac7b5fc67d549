// Document 02, R-5: sets whose last window does not close, sets of which a start alone would do with one, and lists with every total near what their seeds deliver.

use super::calls::{list_row, run_in, set_row, small, Given};
use super::table::Table;
use crate::call::Call;
use crate::random::Random;
use crate::runs::alone;
use second::Refused;

/// Settings of every kind.
fn any_given(random: &mut Random) -> Given {
    [Given::Neither, Given::Limits, Given::Inverts][random.between(0, 2)]
}

/// Whether an accepted set's last window does not close: its slices as a single window have no seed or another one.
fn open(call: &Call) -> bool {
    let mut seeds = vec![0; call.specified.len()];
    let Ok(count) = call.encode_set(&mut seeds) else {
        return false;
    };
    let (last, before) = (seeds[count - 1], &seeds[..count - 1]);
    let length = |&seed: &u64| alone(call, seed).unwrap_or(0);
    let left = call.specified.len() - before.iter().map(length).sum::<usize>();
    alone(call, last) != Ok(left)
}

/// The first slices of a call.
fn start(call: &Call, length: usize) -> Call {
    Call {
        specified: call.specified[..length].to_vec(),
        bits: call.bits[..length].to_vec(),
        ..call.clone()
    }
}

/// Whether a set is refused by 8 though a start longer than the one counted is accepted as a set of its own.
fn longer_start(call: &Call) -> bool {
    let mut seeds = vec![0; call.specified.len()];
    match call.encode_set(&mut seeds) {
        Err(Refused { number: 8, value }) => {
            let mut longer = value as usize + 1..call.specified.len();
            longer.any(|length| start(call, length).encode_set(&mut seeds).is_ok())
        }
        _ => false,
    }
}

/// Sets of these two kinds, two of the first for one of the second.
pub fn sets(random: &mut Random, count: usize) -> Table {
    let rows = (0..count).map(|place| loop {
        let given = any_given(random);
        let call = small(random, given);
        let wanted = if place % 3 == 2 { longer_start } else { open };
        if wanted(&call) {
            return set_row(&call, random.between(0, 4));
        }
    });
    Table {
        name: "open_sets".into(),
        kind: "Outcome",
        rows: rows.collect(),
    }
}

/// A total that leaves the last seed nothing, what it delivers, a slice fewer or more, or about the limit.
fn total(random: &mut Random, call: &Call) -> usize {
    let Some((&last, before)) = call.seeds.split_last() else {
        return 1;
    };
    let length = |seed: u64| alone(call, seed).unwrap_or(0);
    let sum: usize = before.iter().map(|&seed| length(seed)).sum();
    let (own, limit) = (length(last), call.limit.min(8));
    let left = [0, 1, own.saturating_sub(1), own, own + 1, limit, limit + 1];
    (sum + left[random.between(0, left.len() - 1)]).max(1)
}

/// A list of up to four seeds that run into the stop, or with any state as the last one, and a total near theirs. No cause up to 5 refuses it, and few are refused by 11.
fn list(random: &mut Random, any_last: bool) -> Call {
    loop {
        let given = any_given(random);
        let mut call = small(random, given);
        run_in(random, &mut call);
        if any_last {
            call.seeds.pop();
            call.seeds.push(random.bits(call.cells.min(5)));
        }
        call.slices = total(random, &call);
        match call.expand(&call.seeds, &mut []) {
            Err(refused) if refused.number <= 5 => {}
            Err(refused) if refused.number == 11 && !random.one_in(8) => {}
            _ => return call,
        }
    }
}

/// Lists with as many entries lent as they have slices, one more or one fewer.
pub fn lists(random: &mut Random, count: usize) -> Table {
    let rows = (0..count).map(|place| {
        let call = list(random, place % 2 == 1);
        list_row(&call, call.slices + 1 - [0, 1, 1, 2][random.between(0, 3)])
    });
    Table {
        name: "open_lists".into(),
        kind: "Outcome",
        rows: rows.collect(),
    }
}
