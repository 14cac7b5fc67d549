// The library's expanding of seed lists against the second program's: the answer, and every entry of the lent buffer.

use crate::call::{refused, Call};
use crate::inputs::{damage_stop, lawful};
use crate::lent::lend;
use crate::random::Random;
use crate::report::{same, Outcome};
use crate::runs::{alone, pool, walk, Pool};
use crate::seen::Seen;
use second::Refused;

/// Notes the second program's answer, and of a refused seed where it stands in its list.
fn note(call: &Call, told: &Result<usize, Refused>, seen: &mut Seen) {
    seen.answer(told);
    if let Err(Refused {
        number: number @ 10..=12,
        value,
    }) = told
    {
        let (place, last) = (*value as usize, call.seeds.len() - 1);
        let first = if place == 0 { "first" } else { "later" };
        let end = if place == last { "last" } else { "not last" };
        seen.note(&format!("refusal {number}, {first}, {end}"));
    }
}

/// One call with a lent buffer of `room` entries.
pub fn compare(random: &mut Random, call: &Call, room: usize, seen: &mut Seen) -> Outcome {
    let ours = |out: &mut [u64]| call.expanded(out);
    let theirs = |out: &mut [u64]| call.expand(&call.seeds, out);
    let (told, _) = lend(random, room, ours, theirs)
        .map_err(|why| format!("{why}, {room} entries lent to {call:x?}"))?;
    note(call, &told, seen);
    Ok(2)
}

/// One list whose slices or refusal are known, with enough space, one entry fewer and none.
pub fn compare_known(
    random: &mut Random,
    call: &Call,
    known: Result<Vec<u64>, Refused>,
    seen: &mut Seen,
) -> Outcome {
    let mut slices = vec![0; call.slices];
    let told = call.expand(&call.seeds, &mut slices);
    let told = told.map(|count| slices[..count].to_vec());
    same("the second program's slices", told, known)
        .map_err(|why| format!("{why} of the list {call:x?}"))?;
    let mut count = 1;
    for room in [call.slices, call.slices.saturating_sub(1), 0] {
        count += compare(random, call, room, seen)?;
    }
    Ok(count)
}

/// One list with buffers of exactly the size, one entry short, empty, one entry longer and much longer.
fn compare_rooms(random: &mut Random, call: &Call, total: usize, seen: &mut Seen) -> Outcome {
    let long = 2 * total + random.between(2, 300);
    let mut count = 0;
    for room in [total, total.saturating_sub(1), 0, total + 1, long] {
        count += compare(random, call, room, seen)?;
    }
    Ok(count)
}

/// Puts a refused seed first, in the middle, last or anywhere.
fn put(random: &mut Random, seeds: &mut Vec<u64>, seed: u64) -> usize {
    let last = seeds.len();
    let place = [0, last / 2, last, random.between(0, last)][random.between(0, 3)];
    seeds.insert(place, seed);
    place
}

/// Puts one refused seed into a list, or two, and gives the numbers of two in the order of their places.
fn put_refused(random: &mut Random, pool: &Pool, call: &mut Call) -> Option<(u64, u64)> {
    if pool.refused.is_empty() {
        return None;
    }
    let any = |random: &mut Random| pool.refused[random.between(0, pool.refused.len() - 1)];
    let (one, other) = (any(random), any(random));
    let place = put(random, &mut call.seeds, one.0);
    if random.one_in(2) {
        return None;
    }
    if put(random, &mut call.seeds, other.0) <= place {
        Some((other.1, one.1))
    } else {
        Some((one.1, other.1))
    }
}

/// One list with a refused seed or two, where it can be.
fn compare_refused(random: &mut Random, pool: &Pool, seen: &mut Seen) -> Outcome {
    let (mut call, total) = pool.list(random, 7);
    if let Some((first, later)) = put_refused(random, pool, &mut call) {
        let told = call.expand(&call.seeds, &mut []);
        if told.is_err_and(|refused| refused.number == first) {
            seen.note(&format!("{first} before {later}"));
        }
    }
    compare_rooms(random, &call, total, seen)
}

/// Damages one part of a list: register, chains, inverted ones, total, number of seeds or stop slice.
fn damage(random: &mut Random, call: &mut Call) {
    let far = random.beyond(call.cells);
    let place = random.between(0, call.masks.len().max(1) - 1);
    match random.below(11) {
        0 => call.cells = [0, 65, call.cells | 1 << 32, usize::MAX][random.between(0, 3)],
        1 => call.taps |= far,
        2 => call.taps &= random.bits(call.cells.saturating_sub(1)),
        3 => call.masks.clear(),
        4 => call.masks.resize(65, 1),
        5 => {
            if let Some(mask) = call.masks.get_mut(place) {
                *mask = [0, *mask | far][random.between(0, 1)];
            }
        }
        6 => call.slices = [0, 2_049, call.slices | 1 << 32, usize::MAX][random.between(0, 3)],
        7 => call.seeds.resize(2_049, 1),
        8 => call.invert |= random.beyond(call.masks.len()),
        _ => damage_stop(random, call),
    }
}

/// A total near the right one, at a limit, or any; or one that leaves the last seed none, up to its slices, or more than the limit.
fn wrong_total(random: &mut Random, call: &mut Call, total: usize) {
    let last = call
        .seeds
        .last()
        .map_or(0, |&seed| alone(call, seed).unwrap_or(0));
    let before = total.saturating_sub(last);
    let near = [total + 1, total.saturating_sub(1)];
    let far = [0, 1, 2_048, 2_049, usize::MAX, random.between(1, 2_048)];
    call.slices = match random.below(4) {
        0 | 1 => near[random.between(0, 1)],
        2 => {
            before + [0, random.between(0, last), call.limit, call.limit + 1][random.between(0, 3)]
        }
        _ => far[random.between(0, 5)],
    };
}

/// Lists over the states of a pool: with refused seeds, as they are, with random ones, damaged, with a wrong total.
fn lists(random: &mut Random, pool: &Pool, seen: &mut Seen) -> Outcome {
    let mut count = compare_refused(random, pool, seen)?;
    for kind in 0..6 {
        let (mut call, total) = pool.list(random, 7);
        match kind {
            0 => {}
            1 => drop(put_refused(random, pool, &mut call)),
            2 => call.seeds = (0..5).map(|_| random.bits(call.cells)).collect(),
            3 => damage_stop(random, &mut call),
            4 => damage(random, &mut call),
            _ => {
                put_refused(random, pool, &mut call);
                damage(random, &mut call);
                damage(random, &mut call);
            }
        }
        count += compare_rooms(random, &call, total, seen)?;
        wrong_total(random, &mut call, total);
        for room in [total, random.between(0, total)] {
            count += compare(random, &call, room, seen)?;
        }
    }
    Ok(count)
}

/// The list of the second program's encoder for a random set, if the set has one.
fn encoded(random: &mut Random, sizes: (usize, usize, usize), seen: &mut Seen) -> Outcome {
    let mut call = lawful(random, sizes.0, sizes.1, sizes.2);
    let mut seeds = vec![0; call.slices];
    let Ok(number) = call.encode_set(&mut seeds) else {
        return Ok(0);
    };
    call.seeds = seeds[..number].to_vec();
    let total = call.slices;
    let mut count = compare_rooms(random, &call, total, seen)?;
    call.seeds[random.between(0, number - 1)] ^= 1 << random.between(0, call.cells - 1);
    count += compare(random, &call, total, seen)?;
    Ok(count)
}

/// Lists at the limits: how many steps before the stop each seed stands, the total, and the answer where there is space.
fn limits() -> Vec<(Vec<usize>, usize, Result<usize, Refused>)> {
    vec![
        (vec![1], 1, Ok(1)),
        (vec![256], 256, Ok(256)),
        (vec![256], 255, Ok(255)),
        (vec![256], 257, refused(14, 256)),
        (vec![257], 258, refused(12, 0)),
        (vec![257], 257, refused(12, 0)),
        (vec![257], 256, Ok(256)),
        (vec![257], 1, Ok(1)),
        (vec![257, 1], 258, refused(12, 0)),
        (vec![0], 1, refused(11, 0)),
        (vec![1, 256, 3], 260, Ok(260)),
        (vec![1, 257, 0], 2, refused(12, 1)),
        (vec![1, 0, 257], 2, refused(11, 1)),
        (vec![256; 8], 2_048, Ok(2_048)),
        (vec![256; 9], 2_048, refused(14, 2_048)),
        (vec![256; 9], 2_047, refused(14, 2_048)),
        (vec![1; 2_048], 2_048, Ok(2_048)),
        (vec![1; 2_047], 2_047, Ok(2_047)),
        (vec![1; 2_047], 2_048, refused(14, 2_047)),
        (vec![1; 2_048], 2_047, refused(14, 2_047)),
        (vec![1; 2_048], 1, refused(14, 2_047)),
        (vec![1; 2_048], 2_049, refused(3, 0)),
        (vec![1; 2_049], 2_049, refused(3, 0)),
        (vec![1; 2_049], 2_048, refused(3, 0)),
        ([vec![1; 2_047], vec![257]].concat(), 2_048, Ok(2_048)),
        (
            [vec![1; 1_791], vec![257]].concat(),
            2_048,
            refused(12, 1_791),
        ),
        ([vec![1; 1_792], vec![257]].concat(), 2_048, Ok(2_048)),
        (
            [vec![1; 2_047], vec![257]].concat(),
            2_047,
            refused(14, 2_047),
        ),
        (
            [vec![1; 2_047], vec![0]].concat(),
            2_048,
            refused(11, 2_047),
        ),
        ([vec![0], vec![1; 2_047]].concat(), 2_048, refused(11, 0)),
        (vec![], 1, refused(14, 0)),
        (vec![], 2_048, refused(14, 0)),
        (vec![], 0, refused(3, 0)),
        (vec![1], 0, refused(3, 0)),
        (vec![], 2_049, refused(3, 0)),
    ]
}

/// The lists at the limits for one register; the answer with space must be the one named.
fn at_limits(random: &mut Random, cells: usize, seen: &mut Seen) -> Outcome {
    let (mut call, states) = walk(random, cells);
    let mut count = 0;
    for (distances, total, told) in limits() {
        call.seeds = distances.iter().map(|&steps| states[steps]).collect();
        call.slices = total;
        let answer = call.expand(&call.seeds, &mut [0; 2_048]);
        same("the second program at a limit", answer, told)?;
        count += compare_rooms(random, &call, total, seen)?;
    }
    Ok(count)
}

/// 2,048 seeds of 256 slices each: what all but the last deliver is counted to its end.
fn most_slices(random: &mut Random, seen: &mut Seen) -> Outcome {
    let (mut call, states) = walk(random, 9);
    call.seeds = vec![states[256]; 2_048];
    call.slices = 2_048;
    let answer = call.expand(&call.seeds, &mut []);
    same("the second program's total", answer, refused(14, 524_032))?;
    compare(random, &call, 2_048, seen)
}

/// What the second program must have answered: each refusal of a seed also at the first place, in between and last, and each two in one list.
const REQUIRED: [&str; 25] = [
    "accepted",
    "refusal 1",
    "refusal 2",
    "refusal 3",
    "refusal 5",
    "refusal 9",
    "refusal 10",
    "refusal 11",
    "refusal 12",
    "refusal 14",
    "refusal 10, first, not last",
    "refusal 10, later, not last",
    "refusal 10, later, last",
    "refusal 11, first, not last",
    "refusal 11, later, not last",
    "refusal 11, later, last",
    "refusal 12, first, not last",
    "refusal 12, later, not last",
    "refusal 12, later, last",
    "10 before 11",
    "10 before 12",
    "11 before 10",
    "11 before 12",
    "12 before 10",
    "12 before 11",
];

/// Lists for small and wide registers, lists of the encoder, and lists at the limits.
pub fn answers() -> Outcome {
    let mut random = Random(12);
    let mut seen = Seen::default();
    let mut count = 0;
    for round in 0..1_000 {
        let (cells, chains) = if round % 4 == 0 { (64, 64) } else { (6, 4) };
        let pool = pool(&mut random, cells, chains);
        count += lists(&mut random, &pool, &mut seen)?;
    }
    for round in 0..2_500 {
        let sizes = [(12, 4, 20), (64, 64, 40)][round % 2];
        count += encoded(&mut random, sizes, &mut seen)?;
    }
    for cells in [9, 10, 16, 31, 32, 33, 63, 64] {
        count += at_limits(&mut random, cells, &mut seen)?;
    }
    count += most_slices(&mut random, &mut seen)?;
    seen.require(&REQUIRED)?;
    Ok(count)
}
