// The library's encoding of sets and cubes against the second program's: the answer, and every entry of the lent buffer.
// Small sets are compared with brute force too, and each accepted list is expanded again.

use crate::bench;
use crate::call::{refused, Call, DEFAULT_LIMIT};
use crate::inputs::{damage_set, fill, lawful, shaped, thin, turn};
use crate::lent::lend;
use crate::library::{Answer, Like};
use crate::notes::{holding, note, Kind};
use crate::random::Random;
use crate::report::{same, Outcome};
use crate::runs::{alone, deliver, pool_of};
use crate::seen::Seen;
use second::Refused;

/// What was met in sets and in cubes.
#[derive(Default)]
pub struct Met {
    pub sets: Seen,
    pub cubes: Seen,
}

/// Notes the second program's answer, where a set stops that can't be cut, and which refusals come though there is no space.
fn note_answer<T>(
    kind: Kind,
    call: &Call,
    room: usize,
    told: &Result<T, Refused>,
    seen: &mut Seen,
) {
    note(kind, call, told, seen);
    let Err(Refused { number, value }) = *told else {
        return;
    };
    if room == 0 {
        seen.note(&format!("{number}, no entry lent"));
    }
    if number == 9 && value == room as u64 + 1 {
        seen.note("9, one entry short");
    }
    if number == 8 {
        let last = call.specified.len() as u64 - 1;
        seen.note(match value {
            0 => "8 with 0",
            value if value == last => "8 with all slices but one",
            _ => "8 with some slices",
        });
    }
}

/// The lengths of the windows of an accepted list: each runs into the stop, and the last takes the slices that are left.
fn lengths(list: &Call) -> Vec<usize> {
    let before = &list.seeds[..list.seeds.len() - 1];
    let mut lengths: Vec<usize> = before
        .iter()
        .map(|&seed| alone(list, seed).unwrap_or(0))
        .collect();
    lengths.push(list.slices - lengths.iter().sum::<usize>());
    lengths
}

/// Notes the windows of an accepted list, and whether the last one closes with the stop.
fn note_windows(list: &Call, seen: &mut Seen) {
    let mut start = 0;
    let lengths = lengths(list);
    let (last, left) = (list.seeds[lengths.len() - 1], lengths[lengths.len() - 1]);
    seen.note(match alone(list, last) == Ok(left) {
        true => "the last window closes",
        false => "the last window does not close",
    });
    for length in lengths {
        if length == 1 || length == DEFAULT_LIMIT {
            seen.note(&format!("a window of {length}"));
        }
        if length == list.limit {
            seen.note("a window as long as the limit");
        }
        if list.depth > 1 && start % list.depth + length > list.depth {
            seen.note("a window across cubes");
        }
        start += length;
    }
    if list.seeds.len() > 1 {
        seen.note("several seeds");
    }
    if list.depth > list.limit {
        seen.note("a depth above the limit");
    }
}

/// An accepted list, expanded by the library, has a slice for each test slice, and agrees with it.
fn compare_back(call: &Call, stop: (u64, u64), seeds: &[u64], seen: &mut Seen) -> Outcome {
    let list = Call {
        stop,
        slices: call.specified.len(),
        seeds: seeds.to_vec(),
        ..call.clone()
    };
    note_windows(&list, seen);
    let mut slices = vec![0; list.slices];
    let total = list.expanded(&mut slices);
    same("the total", total, Answer::like(Ok(list.slices)))
        .map_err(|why| format!("{why} of the list {list:x?}"))?;
    for (place, &slice) in slices.iter().enumerate() {
        if !second::agrees(list.specified[place], list.bits[place], slice) {
            return Err(format!("slice {place} is {slice:x} of the list {list:x?}"));
        }
    }
    Ok(1 + slices.len())
}

/// One set with a lent buffer of `room` entries.
fn set_with_room(random: &mut Random, call: &Call, room: usize, seen: &mut Seen) -> Outcome {
    let ours = |out: &mut [u64]| call.encoded_set(out);
    let theirs = |out: &mut [u64]| call.encode_set(out);
    let (told, buffer) = lend(random, room, ours, theirs)
        .map_err(|why| format!("{why}, {room} entries lent to the set {call:x?}"))?;
    note_answer(Kind::Set, call, room, &told, seen);
    match told {
        Ok(count) => Ok(2 + compare_back(call, call.stop, &buffer[..count], seen)?),
        Err(_) => Ok(2),
    }
}

/// One set that comes as cubes, with a lent buffer of `room` entries.
fn cubes_with_room(random: &mut Random, call: &Call, room: usize, seen: &mut Seen) -> Outcome {
    let ours = |out: &mut [u64]| call.encoded_cubes(out);
    let theirs = |out: &mut [u64]| call.encode_cubes(out);
    let (told, buffer) = lend(random, room, ours, theirs)
        .map_err(|why| format!("{why}, {room} entries lent to the cubes {call:x?}"))?;
    note_answer(Kind::Cubes, call, room, &told, seen);
    match told {
        Ok((specified, bits, count)) => {
            let stop = (specified, bits);
            Ok(2 + compare_back(call, stop, &buffer[..count], seen)?)
        }
        Err(_) => Ok(2),
    }
}

/// How many entries to lend where so many are needed: just these, one less, none, one more and many more.
fn rooms(random: &mut Random, needed: usize) -> [usize; 5] {
    let many = 2 * needed + random.between(2, 300);
    [needed, needed - 1, 0, needed + 1, many]
}

/// How many entries a call needs by its answer with none lent; some, where it needs none.
fn needed<T>(random: &mut Random, told: Result<T, Refused>) -> usize {
    match told {
        Err(Refused { number: 9, value }) => value as usize,
        _ => random.between(1, 4),
    }
}

/// One set with the first `most` of these buffers.
pub fn compare_set(random: &mut Random, call: &Call, most: usize, met: &mut Met) -> Outcome {
    let needed = needed(random, call.encode_set(&mut []));
    let mut count = 0;
    for room in &rooms(random, needed)[..most] {
        count += set_with_room(random, call, *room, &mut met.sets)?;
    }
    Ok(count)
}

/// One set as cubes with the first `most` of these buffers.
pub fn compare_cubes(random: &mut Random, call: &Call, most: usize, met: &mut Met) -> Outcome {
    let needed = needed(random, call.encode_cubes(&mut []));
    let mut count = 0;
    for room in &rooms(random, needed)[..most] {
        count += cubes_with_room(random, call, *room, &mut met.cubes)?;
    }
    Ok(count)
}

/// What the second program must say to a set with space: its seeds, or a refusal.
pub type Known = Result<Vec<u64>, Refused>;

/// Of long sets, which take long, two buffers are tried.
fn most_rooms(call: &Call) -> usize {
    if call.specified.len() > 600 {
        2
    } else {
        5
    }
}

/// One set whose answer is known.
pub fn compare_known(random: &mut Random, call: &Call, known: Known, met: &mut Met) -> Outcome {
    let mut out = vec![0; call.specified.len()];
    let told = call.encode_set(&mut out);
    let told = told.map(|count| out[..count].to_vec());
    same("the second program's seeds", told, known)
        .map_err(|why| format!("{why} of the set {call:x?}"))?;
    compare_set(random, call, most_rooms(call), met)
}

/// One set that comes as cubes and whose answer is known; the call holds the stop slice that it must get.
pub fn compare_known_cubes(
    random: &mut Random,
    call: &Call,
    known: Known,
    met: &mut Met,
) -> Outcome {
    let mut out = vec![0; call.specified.len()];
    let told = call.encode_cubes(&mut out);
    let told = told.map(|(specified, bits, count)| ((specified, bits), out[..count].to_vec()));
    let known = known.map(|seeds| (call.stop, seeds));
    same("the second program's stop and seeds", told, known)
        .map_err(|why| format!("{why} of the cubes {call:x?}"))?;
    compare_cubes(random, call, most_rooms(call), met)
}

/// Document 01's sets, and document 004's figure 2 as a set.
pub fn examples() -> Outcome {
    let mut random = Random(15);
    let mut met = Met::default();
    let mut count = 0;
    let starred = bench::starred_sets()
        .into_iter()
        .chain([bench::sheet_set()]);
    for (call, known) in starred.chain(bench::limit_sets()) {
        count += compare_known(&mut random, &call, known, &mut met)?;
    }
    let (call, known) = bench::sheet_set();
    count += compare_known_cubes(&mut random, &call, known, &mut met)?;
    // with the stop 11, R delivers the first five of the two chains' slices in windows that close, and the sixth in one that does not
    let [(one_chain, _), (mut two_chains, told)] = bench::starred_in();
    two_chains.stop = told.map_err(|refused| format!("{refused:?}"))?;
    let seeds = Ok(vec![3, 3, 3, 1, 4]);
    for (call, known) in [(one_chain, refused(6, 0)), (two_chains, seeds)] {
        count += compare_known_cubes(&mut random, &call, known, &mut met)?;
    }
    let call = bench::figure_set();
    let told = call.encode_cubes(&mut [0; 6]);
    let stop = told.map(|(specified, bits, _)| (specified, bits));
    same("the second program's stop of figure 2", stop, Ok(call.stop))?;
    count += compare_cubes(&mut random, &call, 5, &mut met)?;
    Ok(count)
}

/// A set as up to six states deliver it, cut off after `most` slices, with some of its bits.
pub fn delivered(random: &mut Random, call: Call, percent: u64, most: usize) -> Call {
    let (mut call, _) = pool_of(random, call).list(random, 6);
    deliver(random, &mut call, percent);
    call.specified.truncate(most);
    call.bits.truncate(most);
    call
}

/// Cubes of up to four slices, if they divide the set.
pub fn divide(random: &mut Random, call: &mut Call) {
    let depth = random.between(1, 4);
    if call.specified.len().is_multiple_of(depth) {
        call.depth = depth;
    }
}

/// A set for a register of up to `most_cells` cells: of any slices, of few bits, or delivered.
pub fn small(random: &mut Random, most_cells: usize) -> Call {
    let (cells, chains) = (random.between(1, most_cells), random.between(1, 6));
    match random.below(4) {
        0 => lawful(random, most_cells, 6, 24),
        1 => {
            let mut call = lawful(random, most_cells, 6, 40);
            thin(random, &mut call);
            call
        }
        _ => {
            let call = shaped(random, cells, chains);
            let percent = [5, 10, 30, 60, 100][random.between(0, 4)];
            let mut call = delivered(random, call, percent, 60);
            if random.one_in(3) {
                turn(random, &mut call);
            }
            divide(random, &mut call);
            call
        }
    }
}

/// A set with space, by all states and all cuttings: the fewest seeds, and those of the longest windows; or refusal 8 with the longest start.
pub fn brute(call: &Call) -> Result<Known, String> {
    let found = call.brute_set()?;
    Ok(match found.fewest {
        Some(fewest) if fewest == found.seeds.len() => Ok(found.seeds),
        Some(fewest) => return Err(format!("{fewest} seeds are fewest for {call:x?}")),
        None => refused(8, found.longest_start),
    })
}

/// Notes where the first window of an accepted set is longer than one that no state covers.
fn note_gap(call: &Call, seeds: &[u64], seen: &mut Seen) {
    let length = match seeds.len() {
        1 => call.specified.len(),
        _ => alone(call, seeds[0]).unwrap_or(0),
    };
    for shorter in 1..length {
        let mut window = call.clone();
        window.specified.truncate(shorter);
        window.bits.truncate(shorter);
        if window.window_seed().is_err() {
            seen.note("a shorter window has no seed");
        }
    }
}

/// What the second program must have met in small sets and cubes alike.
const SMALL: [&str; 13] = [
    "accepted",
    "the last window closes",
    "the last window does not close",
    "several seeds",
    "accepted, 1 chain",
    "accepted, equal masks",
    "8 with 0",
    "8 with some slices",
    "8 with all slices but one",
    "refusal 8, 1 cell",
    "8, no entry lent",
    "9, no entry lent",
    "9, one entry short",
];

/// Sets of up to 12 cells, with their stop slice and as cubes: the number of seeds is the fewest over all cuttings.
pub fn against_brute_force() -> Outcome {
    let mut random = Random(16);
    let mut met = Met::default();
    let mut count = 0;
    for _ in 0..12_000 {
        let mut call = small(&mut random, 12);
        if holding(Kind::Set, &call).is_empty() {
            let known = brute(&call)?;
            if let Ok(seeds) = &known {
                note_gap(&call, seeds, &mut met.sets);
            }
            count += compare_known(&mut random, &call, known, &mut met)?;
        }
        if let (true, Ok(stop)) = (holding(Kind::Cubes, &call).is_empty(), call.stop_slice()) {
            call.stop = stop;
            let known = brute(&call)?;
            count += compare_known_cubes(&mut random, &call, known, &mut met)?;
        }
    }
    met.sets.require(&SMALL)?;
    met.sets.require(&["a shorter window has no seed"])?;
    met.cubes.require(&SMALL)?;
    met.cubes.require(&["a window across cubes"])?;
    Ok(count)
}

/// What the second program must have answered to damaged sets and cubes alike: also with two causes at once, and with no entry lent.
const REQUIRED: [&str; 21] = [
    "accepted",
    "refusal 1",
    "refusal 2",
    "refusal 3",
    "refusal 4",
    "refusal 8",
    "refusal 9",
    "1 before 2",
    "1 before 3",
    "1 before 4",
    "2 before 3",
    "2 before 4",
    "3 before 4",
    "1, no entry lent",
    "2, no entry lent",
    "3, no entry lent",
    "4, no entry lent",
    "8, no entry lent",
    "9, no entry lent",
    "9, one entry short",
    "8 with some slices",
];

/// Damages a set and compares it, unless it became a long set that is searched: that would take long.
fn compare_damaged(random: &mut Random, mut call: Call, damages: usize, met: &mut Met) -> Outcome {
    for _ in 0..damages {
        damage_set(random, &mut call);
    }
    let searched = |kind| holding(kind, &call).is_empty();
    let long = call.specified.len() > 300 || call.cells > 12;
    let mut count = 0;
    if !(long && searched(Kind::Set)) {
        count += compare_set(random, &call, 3, met)?;
    }
    if !(long && searched(Kind::Cubes)) {
        count += compare_cubes(random, &call, 3, met)?;
    }
    Ok(count)
}

/// Sets with up to three damages: of small registers, and of wide ones.
pub fn damaged() -> Outcome {
    let mut random = Random(17);
    let mut met = Met::default();
    let mut count = 0;
    for round in 0..10_000 {
        let call = small(&mut random, 8);
        count += compare_damaged(&mut random, call, round % 4, &mut met)?;
    }
    for round in 0..5_000 {
        let (cells, chains) = (random.between(13, 64), random.between(1, 64));
        let mut call = shaped(&mut random, cells, chains);
        fill(&mut random, &mut call, 1 + round % 20, 30);
        count += compare_damaged(&mut random, call, 1 + round % 3, &mut met)?;
    }
    met.sets.require(&REQUIRED)?;
    met.cubes.require(&REQUIRED)?;
    met.sets.require(&[
        "refusal 5",
        "1 before 5",
        "2 before 5",
        "3 before 5",
        "4 before 5",
        "5, no entry lent",
    ])?;
    met.cubes.require(&["refusal 6", "6, no entry lent"])?;
    Ok(count)
}
