// Sheets whose last window does not close, and their lists with totals near the right one and with a seed more or fewer, by the library and by the two programs.

use crate::bench;
use crate::call::Call;
use crate::encodes::small;
use crate::programs::{self, Paths};
use crate::random::Random;
use crate::runs::alone;
use crate::sheets::{limited, list, sheet};
use crate::tally::Tally;
use crate::text::{Program, Text};
use crate::texts::compare;
use crate::window_limit::texts::expands_back;

/// The list of a sheet with other totals, and with a seed more or fewer.
fn near(call: &Call) -> Vec<Vec<u8>> {
    let total = call.slices;
    let mut texts = Vec::new();
    for slices in [total - 1, total, total + 1, total + call.limit] {
        let other = Call {
            slices,
            ..call.clone()
        };
        texts.push(other);
    }
    let (mut longer, mut shorter) = (call.clone(), call.clone());
    longer.seeds.push(0);
    shorter.seeds.pop();
    texts.extend([longer, shorter]);
    let text = |call: Call| limited(list(&call), call.limit).concat();
    texts.into_iter().map(text).collect()
}

/// A random small sheet with its list, if it has one whose last window does not close.
fn open(random: &mut Random) -> Option<Call> {
    let mut call = small(random, 10);
    call.limit = [256, random.between(1, 6)][random.between(0, 1)];
    let mut seeds = vec![0; call.specified.len()];
    let (specified, bits, count) = call.encode_cubes(&mut seeds).ok()?;
    seeds.truncate(count);
    (call.stop, call.seeds, call.slices) = ((specified, bits), seeds, call.specified.len());
    let (last, before) = call.seeds.split_last()?;
    let length = |&seed: &u64| alone(&call, seed).unwrap_or(0);
    let left = call.slices - before.iter().map(length).sum::<usize>();
    (alone(&call, *last) != Ok(left)).then_some(call)
}

/// Lists of R with the stop 01: each of its states alone and behind the seed 3, with totals up to 6, the limit and one more, and two limits.
fn of_r() -> Vec<Vec<u8>> {
    let mut texts = Vec::new();
    for limit in [2, 256] {
        for last in 0..=8 {
            for seeds in [vec![last], vec![3, last]] {
                for slices in (1..=6).chain([limit, limit + 1, limit + 2, limit + 3]) {
                    let mut call = bench::all_x(bench::of_r("01", &[]), slices);
                    call.seeds = seeds.clone();
                    texts.push(limited(list(&call), limit).concat());
                }
            }
        }
    }
    texts
}

/// So many sheets with their lists, as texts; each list repeats the lines of its sheet and expands back.
fn texts(random: &mut Random, count: usize) -> Result<Vec<Text>, String> {
    let mut texts: Vec<Text> = of_r()
        .into_iter()
        .map(|text| Text::new(Program::Expand, text))
        .collect();
    let mut sheets = 0;
    while sheets < count {
        let Some(call) = open(random) else {
            continue;
        };
        let text = Text::new(Program::Encode, limited(sheet(&call), call.limit).concat());
        expands_back(&text.bytes, &text.told().printed)
            .map_err(|why| format!("{why}, {}", text.shown()))?;
        texts.push(text);
        let lists = near(&call).into_iter();
        texts.extend(lists.map(|list| Text::new(Program::Expand, list)));
        sheets += 1;
    }
    Ok(texts)
}

/// What must have been met.
fn required(tally: Tally) -> Result<Tally, String> {
    for name in [
        "encode, accepted",
        "expand, accepted",
        "expand, 11",
        "expand, 12",
        "expand, 14",
    ] {
        let name = format!("{name} with a window line");
        tally.seen.require(&[&name])?;
    }
    Ok(tally)
}

/// By the library.
pub fn by_library() -> Result<Tally, String> {
    let mut random = Random(107);
    let mut tally = Tally::default();
    for text in texts(&mut random, 1_000)? {
        compare(&mut random, &text, &mut tally)?;
    }
    required(tally)
}

/// By the two programs.
pub fn by_programs(paths: &Paths) -> Result<Tally, String> {
    let texts = texts(&mut Random(108), 60)?;
    required(programs::compare_whole(paths, texts.into_iter())?)
}
