// The same set with some chains inverted and without: with its bits turned it has the same seeds, and a list delivers slices that differ in just these chains.

use super::{all, turned};
use crate::call::Call;
use crate::encodes::small;
use crate::inputs::{damage_set, shaped};
use crate::notes::{holding, Kind};
use crate::random::Random;
use crate::report::{same, Outcome};
use crate::runs::pool_of;
use crate::seen::Seen;
use crate::wide;

/// The library's seed and seeds of a set, and of the set with these chains turned. A window of 64 cells can need a long search, so it is short.
fn seeds(call: &Call, chains: u64, seen: &mut Seen) -> Outcome {
    let other = turned(call, chains);
    let encode = |call: &Call| {
        let mut out = vec![0x55; call.specified.len()];
        (call.encoded_set(&mut out), out)
    };
    let (ours, theirs) = (encode(call), encode(&other));
    seen.note(&format!("set, {}", ours.0.number));
    same("the seeds", ours, theirs)?;
    let window = |call: &Call| {
        let mut call = call.clone();
        call.specified.truncate(20);
        call.bits.truncate(20);
        call.seed_of_window()
    };
    let (ours, theirs) = (window(call), window(&other));
    seen.note(&format!("window, {}", ours.number));
    same("the seed", ours, theirs)?;
    Ok(2)
}

/// The library's slices of a list, and of the list with these chains turned: all differ in these chains alone, and on refusal nothing is written.
fn slices(call: &Call, chains: u64, seen: &mut Seen) -> Outcome {
    let other = turned(call, chains);
    let expand = |call: &Call| {
        let mut out = vec![0x55; call.slices.min(2_048) + 1];
        (call.expanded(&mut out), out)
    };
    let ((answer, ours), (told, theirs)) = (expand(call), expand(&other));
    seen.note(&format!("list, {}", answer.number));
    same("the answer", answer, told)?;
    let written = if answer.number == 0 { answer.value } else { 0 };
    for (place, (ours, theirs)) in ours.iter().zip(&theirs).enumerate() {
        let differ = if place < written { chains } else { 0 };
        same("the chains that differ", ours ^ theirs, differ)?;
    }
    Ok(1 + ours.len())
}

/// One call with each of some chains turned: those that are inverted, all, one, and any.
fn compare(random: &mut Random, call: &Call, seen: &mut Seen) -> Outcome {
    let count = call.masks.len();
    let one = 1 << random.between(0, count - 1);
    let mut compared = 0;
    let held = call.invert & all(count);
    for chains in [held, all(count), one, random.bits(count)] {
        let more =
            seeds(call, chains, seen).and_then(|more| Ok(more + slices(call, chains, seen)?));
        compared += more.map_err(|why| format!("{why}, {chains:x} turned in {call:x?}"))?;
    }
    Ok(compared)
}

/// The call's list becomes the library's own seeds, or where it has none, states that run into a stop of their own; of one in four with any state behind.
fn with_list(random: &mut Random, mut call: Call) -> Call {
    let mut out = vec![0; call.specified.len()];
    let answer = call.encoded_set(&mut out);
    if answer.number == 0 {
        call.seeds = out[..answer.value].to_vec();
        call.slices = call.specified.len();
    } else {
        let other = shaped(random, call.cells, call.masks.len());
        let (list, _) = pool_of(random, other).list(random, 5);
        call = Call {
            specified: call.specified,
            bits: call.bits,
            ..list
        };
    }
    if random.one_in(4) {
        call.seeds.push(random.bits(call.cells));
    }
    call
}

/// Small and wide sets and lists, and small ones with a damage; a set of many slices is not searched.
pub fn answers() -> Outcome {
    let mut random = Random(89);
    let mut seen = Seen::default();
    let mut count = 0;
    for round in 0..3_000 {
        let mut call = match round % 10 {
            0 => {
                let chains = random.between(8, 64);
                wide::set(&mut random, chains, 30)
            }
            _ => small(&mut random, 10),
        };
        call = with_list(&mut random, call);
        if round % 10 == 1 {
            damage_set(&mut random, &mut call);
        }
        let chains = call.masks.len();
        let long = call.specified.len() > 300 && holding(Kind::Set, &call).is_empty();
        if (1..=64).contains(&chains) && !long {
            count += compare(&mut random, &call, &mut seen)?;
        }
    }
    seen.require(&["set, 0", "set, 8", "window, 0", "window, 7"])?;
    seen.require(&["list, 0", "list, 11", "list, 12", "list, 14"])?;
    seen.require(&["set, 1", "set, 2", "set, 3", "set, 4"])?;
    Ok(count)
}
