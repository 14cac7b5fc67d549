// Sheets and seed lists as lines: of a call, with a window line or without, with an invert line or without, and random lawful ones.

use crate::call::{Call, DEFAULT_LIMIT};
use crate::encodes::small;
use crate::inputs::{fill, lawful, shaped};
use crate::random::Random;
use crate::runs::pool_of;
use crate::text::Program;
use crate::wide;

/// Lines, each with its line feed.
pub type Lines = Vec<Vec<u8>>;

/// The lines before depth or stop; an invert line where a chain is inverted, and no window line.
fn head(call: &Call) -> Vec<String> {
    let mut lines = vec![
        format!("cells={}\n", call.cells),
        format!("taps={:x}\n", call.taps),
        format!("chains={}\n", call.masks.len()),
    ];
    lines.extend(call.masks.iter().map(|mask| format!("chain={mask:x}\n")));
    if call.invert != 0 {
        lines.push(format!("invert={:x}\n", call.invert));
    }
    lines
}

fn as_bytes(lines: Vec<String>) -> Lines {
    lines.into_iter().map(String::into_bytes).collect()
}

/// The sheet of a call's cubes.
pub fn sheet(call: &Call) -> Lines {
    let mut lines = head(call);
    lines.push(format!("depth={}\n", call.depth));
    for (&specified, &bits) in call.specified.iter().zip(&call.bits) {
        let slice = second::slice_text(call.masks.len(), specified, bits);
        lines.push(format!("slice={slice}\n"));
    }
    as_bytes(lines)
}

/// The list of a call's stop slice, total and seeds.
pub fn list(call: &Call) -> Lines {
    let mut lines = head(call);
    let stop = second::slice_text(call.masks.len(), call.stop.0, call.stop.1);
    lines.push(format!("stop={stop}\n"));
    lines.push(format!("slices={}\n", call.slices));
    lines.extend(call.seeds.iter().map(|seed| format!("seed={seed:x}\n")));
    as_bytes(lines)
}

/// The line behind the last one that has one of these keys.
fn behind(lines: &Lines, keys: &[&[u8]]) -> usize {
    let found = |line: &Vec<u8>| keys.iter().any(|key| line.starts_with(key));
    lines.iter().rposition(found).map_or(0, |place| place + 1)
}

/// The same lines with an invert line behind the chain lines, in place of the one that they may have.
pub fn inverted(mut lines: Lines, invert: u64) -> Lines {
    lines.retain(|line| !line.starts_with(b"invert="));
    let behind = behind(&lines, &[b"chain="]);
    lines.insert(behind, format!("invert={invert:x}\n").into_bytes());
    lines
}

/// The same lines with a window line behind the chain lines and the invert line.
pub fn limited(mut lines: Lines, limit: usize) -> Lines {
    let behind = behind(&lines, &[b"chain=", b"invert="]);
    lines.insert(behind, format!("window={limit}\n").into_bytes());
    lines
}

/// A set of 2,047 or 2,048 slices for up to 64 chains, dense enough that its windows are short.
fn long(random: &mut Random) -> Call {
    let chains = [random.between(20, 64), 64][random.between(0, 1)];
    let mut call = shaped(random, 64, chains);
    let count = random.between(2_047, 2_048);
    let percent = [10, 30, 60, 100][random.between(0, 3)];
    fill(random, &mut call, count, percent);
    call.depth = [1, count / 8][usize::from(count == 2_048)];
    call
}

/// A set of two or three chains that takes up most patterns or all: the stop slice steps often end with slices in.
fn pressed(random: &mut Random) -> Call {
    let (cells, chains) = (random.between(3, 8), random.between(2, 3));
    let mut call = shaped(random, cells, chains);
    let count = random.between(1, 3 << chains);
    fill(random, &mut call, count, 80);
    call.depth = 1;
    call
}

/// A set of any kind: mostly small, some for up to 64 chains, some that take up most patterns, few as long as can be.
fn any_set(random: &mut Random) -> Call {
    let percent = [10, 30, 60, 100][random.between(0, 3)];
    match random.below(300) {
        0 => long(random),
        1..=40 => {
            let chains = random.between(10, 64);
            wide::set(random, chains, percent)
        }
        41..=80 => {
            let (cells, chains) = (random.between(1, 64), random.between(1, 64));
            let mut call = shaped(random, cells, chains);
            let count = random.between(1, 30);
            fill(random, &mut call, count, percent);
            call
        }
        81..=120 => pressed(random),
        _ => small(random, 12),
    }
}

/// The call with the second program's stop slice and seeds, if it has them.
fn encoded(mut call: Call) -> Option<Call> {
    let mut seeds = vec![0; call.specified.len()];
    let (specified, bits, count) = call.encode_cubes(&mut seeds).ok()?;
    seeds.truncate(count);
    call.stop = (specified, bits);
    call.slices = call.specified.len();
    call.seeds = seeds;
    Some(call)
}

/// A list of states that run into the stop within the limit, in one of two cases with seeds that are refused or with any states.
fn made(random: &mut Random, limit: usize) -> Call {
    let (cells, chains) = [(6, 4), (12, 6), (64, 64)][random.between(0, 2)];
    let call = lawful(random, cells, chains, 1);
    let pool = pool_of(random, Call { limit, ..call });
    let (mut call, _) = pool.list(random, 7);
    for _ in 0..[0, 0, 1, 2][random.between(0, 3)] {
        let place = random.between(0, call.seeds.len());
        let seed = match pool.refused.len() {
            0 => random.bits(call.cells),
            count => pool.refused[random.between(0, count - 1)].0,
        };
        call.seeds.insert(place, seed);
    }
    call
}

/// The list with another total: at a limit, one off, or any up to one that leaves the last seed more slices than the limit.
fn other_total(random: &mut Random, mut call: Call) -> Call {
    let total = call.slices;
    let any = random.between(1, total + call.limit + 1);
    let totals = [1, 2_048, total + 1, total.saturating_sub(1), any, any];
    call.slices = totals[random.between(0, 5)].clamp(1, 2_048);
    call
}

/// A random sheet or list at a limit, without a window line; most are lawful. About half have an invert line.
pub fn any_at(random: &mut Random, program: Program, limit: usize) -> Lines {
    let set = |random: &mut Random| Call {
        limit,
        ..any_set(random)
    };
    if program == Program::Encode {
        return sheet(&set(random));
    }
    let whole = match random.one_in(2) {
        true => encoded(set(random)),
        false => None,
    };
    let call = whole.unwrap_or_else(|| made(random, limit));
    match random.one_in(5) {
        true => list(&other_total(random, call)),
        false => list(&call),
    }
}

/// The same lines, now and then with an invert line of 0 where they have none.
fn zeroed(random: &mut Random, lines: Lines) -> Lines {
    let named = lines.iter().any(|line| line.starts_with(b"invert="));
    match random.one_in(8) && !named {
        true => inverted(lines, 0),
        false => lines,
    }
}

/// A random sheet or list; every second has a window line, most of them with a small limit, and about every second an invert line.
pub fn any(random: &mut Random, program: Program) -> Lines {
    if random.one_in(2) {
        let lines = any_at(random, program, DEFAULT_LIMIT);
        return zeroed(random, lines);
    }
    let most = [4, 20, 60, 256][random.between(0, 3)];
    let limit = [random.between(1, most), 256][usize::from(random.one_in(8))];
    let lines = any_at(random, program, limit);
    limited(zeroed(random, lines), limit)
}
