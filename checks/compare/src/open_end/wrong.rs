// Lists of accepted sets with one seed too many, one too few or another last seed, and with every total near theirs.

use super::endings::Ended;
use crate::call::{refused, Call};
use crate::encodes::small;
use crate::library::{Answer, Like};
use crate::notes::{holding, Kind};
use crate::random::Random;
use crate::report::same;
use crate::runs::alone;
use crate::seen::Seen;
use second::Refused;

/// A random set with the library's list, if it has one.
fn accepted(random: &mut Random) -> Option<Call> {
    let mut call = small(random, 8);
    call.limit = [256, random.between(1, 6)][random.between(0, 1)];
    if !holding(Kind::Set, &call).is_empty() {
        return None;
    }
    let mut seeds = vec![0; call.specified.len()];
    let answer = call.encoded_set(&mut seeds);
    if answer.number != 0 {
        return None;
    }
    seeds.truncate(answer.value);
    (call.seeds, call.slices) = (seeds, call.specified.len());
    Some(call)
}

/// The slices that all seeds but the last deliver.
fn before_last(call: &Call) -> usize {
    let before = &call.seeds[..call.seeds.len() - 1];
    let length = |&seed: &u64| alone(call, seed).unwrap_or(0);
    before.iter().map(length).sum()
}

/// What must come of an accepted list with the seed 1 behind its last one, which then has to run into the stop and leaves nothing.
fn one_more(call: &Call) -> Result<usize, Refused> {
    let place = call.seeds.len();
    let last = call.seeds[place - 1];
    match (alone(call, last), alone(call, 1)) {
        (Err(_), _) => refused(12, place - 1),
        (_, Err(11)) => refused(11, place),
        (Ok(length), _) => refused(14, before_last(call) + length),
    }
}

/// The library's answer to a list is the known one.
fn answers_so(call: &Call, known: Result<usize, Refused>) -> Result<(), String> {
    let answer = call.expanded(&mut vec![0; call.slices]);
    same("the answer", answer, Answer::like(known))
        .map_err(|why| format!("{why} of the list {call:x?}"))
}

/// The list as it is, one seed longer and one shorter, with known answers.
fn lists(call: &Call) -> Result<[Call; 3], String> {
    let (mut longer, mut shorter) = (call.clone(), call.clone());
    longer.seeds.push(1);
    shorter.seeds.pop();
    answers_so(call, Ok(call.slices))?;
    answers_so(&longer, one_more(call))?;
    answers_so(&shorter, refused(14, before_last(call)))?;
    Ok([call.clone(), longer, shorter])
}

/// These lists, and the first with another last seed; each with every total near its own.
fn compare(random: &mut Random, call: &Call, ended: &mut Ended) -> Result<(), String> {
    let mut seen = Seen::default();
    let mut other = call.clone();
    let last = other.seeds.len() - 1;
    other.seeds[last] ^= 1 << random.between(0, call.cells - 1);
    for mut list in lists(call)?.into_iter().chain([other]) {
        let near = list.slices.saturating_sub(3).max(1)..list.slices + 3;
        for total in near.chain([list.slices + list.limit]) {
            list.slices = total.min(2_048);
            ended.compare(random, &list, &mut seen)?;
        }
    }
    ended.compared += 3;
    Ok(())
}

/// Lists of sets of up to 8 cells, with large and small limits.
pub fn answers() -> Result<Ended, String> {
    let mut random = Random(105);
    let mut ended = Ended::default();
    for _ in 0..4_000 {
        if let Some(call) = accepted(&mut random) {
            compare(&mut random, &call, &mut ended)?;
        }
    }
    ended.require_all()
}
