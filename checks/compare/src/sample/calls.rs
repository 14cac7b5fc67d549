// Windows, sets, cubes, lists and slices: the second program's answers, with document 01's settings, with other limits of windows, and with inverted chains.

use super::table::{cause, cubes_outcome, list, outcome, slice, Table};
use crate::call::{Call, DEFAULT_LIMIT};
use crate::inputs::{damage_lightly, lawful, thin};
use crate::random::Random;
use crate::runs::alone;

/// The settings and the masks. Where no limit and no inverted chain is given they are document 01's.
fn settings(call: &Call) -> String {
    let (cells, taps, limit, invert) = (call.cells, call.taps, call.limit, call.invert);
    let settings = match (limit, invert) {
        (DEFAULT_LIMIT, 0) => format!("base {cells} {taps}"),
        _ => format!(
            "record {{ cells = {cells}; taps = {taps}; limit = {limit}; invert = {invert} }}"
        ),
    };
    format!("({settings}) {}", list(&call.masks))
}

/// Which settings the calls of a table have besides their register.
#[derive(Clone, Copy, PartialEq)]
pub enum Given {
    /// Document 01's 256 and no inverted chain, which no text names.
    Neither,
    /// Small limits, and now and then 0, 256 or 257; each text names its own.
    Limits,
    /// Any inverted chains, now and then one that is none of the chains, and every second time a small limit; each text names its own.
    Inverts,
}

impl Given {
    /// A limit.
    fn limit(self, random: &mut Random) -> usize {
        match self {
            Given::Neither => DEFAULT_LIMIT,
            Given::Limits => match random.below(12) {
                0 => 0,
                1 => 256,
                2 => 257,
                _ => random.between(1, 4),
            },
            Given::Inverts => [DEFAULT_LIMIT, random.between(1, 4)][random.between(0, 1)],
        }
    }

    /// Inverted chains of so many.
    fn invert(self, random: &mut Random, chains: usize) -> u64 {
        match (self, random.below(12)) {
            (Given::Inverts, 0) => random.bits(chains) | 1 << chains,
            (Given::Inverts, _) => random.bits(chains),
            _ => 0,
        }
    }

    /// The call with such settings.
    pub fn set(self, random: &mut Random, call: &mut Call) {
        call.limit = self.limit(random);
        call.invert = self.invert(random, call.masks.len());
    }

    /// The name of a table of a kind.
    pub fn name(self, kind: &str) -> String {
        match self {
            Given::Neither => kind.into(),
            Given::Limits => format!("limited_{kind}"),
            Given::Inverts => format!("inverted_{kind}"),
        }
    }
}

/// A small call, whole or damaged.
pub fn small(random: &mut Random, given: Given) -> Call {
    let mut call = lawful(random, 5, 3, 6);
    given.set(random, &mut call);
    if random.one_in(2) {
        thin(random, &mut call);
    }
    if random.one_in(4) {
        damage_lightly(random, &mut call);
    }
    call
}

pub fn windows(random: &mut Random, given: Given, count: usize) -> Table {
    let rows = (0..count).map(|_| {
        let mut call = small(random, given);
        // of windows above the limit, most by one slice
        if given != Given::Neither && !random.one_in(8) {
            let most = random.between(1, call.limit + 1);
            call.specified.truncate(most);
            call.bits.truncate(most);
        }
        let told = match call.window_seed() {
            Ok(state) => format!("Ok {state}"),
            Err(refused) => format!("Err {}", cause(refused)),
        };
        let lists = format!("{} {}", list(&call.specified), list(&call.bits));
        (
            format!(
                "window_seed {} {} {lists}",
                settings(&call),
                slice(call.stop)
            ),
            told,
        )
    });
    Table {
        name: given.name("windows"),
        kind: "Result ℕ Cause",
        rows: rows.collect(),
    }
}

/// Slices of states, which no cause refuses.
pub fn slices(random: &mut Random, count: usize) -> Table {
    let rows = (0..count).map(|_| {
        let mut call = lawful(random, 6, 5, 1);
        call.invert = random.bits(call.masks.len());
        let state = random.bits(call.cells);
        let told = call.slice_of(state).to_string();
        (format!("(machine {}).slice {state}", settings(&call)), told)
    });
    Table {
        name: "slices".into(),
        kind: "ℕ",
        rows: rows.collect(),
    }
}

/// The question and answer of a set with a lent buffer of so many entries.
pub fn set_row(call: &Call, room: usize) -> (String, String) {
    let lent = vec![77; room];
    let mut out = lent.clone();
    let answer = call.encode_set(&mut out);
    let lists = format!(
        "{} {} {}",
        list(&call.specified),
        list(&call.bits),
        list(&lent)
    );
    (
        format!("encode_set {} {} {lists}", settings(call), slice(call.stop)),
        outcome(answer, &out),
    )
}

pub fn sets(random: &mut Random, given: Given, count: usize) -> Table {
    let rows = (0..count).map(|_| {
        let call = small(random, given);
        set_row(&call, random.between(0, 4))
    });
    Table {
        name: given.name("sets"),
        kind: "Outcome",
        rows: rows.collect(),
    }
}

pub fn cubes(random: &mut Random, given: Given, count: usize) -> Table {
    let rows = (0..count).map(|_| {
        let mut call = small(random, given);
        if random.one_in(8) {
            call.depth = random.between(0, 8);
        }
        let lent = vec![77; random.between(0, 4)];
        let mut out = lent.clone();
        let answer = call.encode_cubes(&mut out);
        let set = format!("{} {}", list(&call.specified), list(&call.bits));
        let depth = call.depth;
        (
            format!(
                "encode_cubes {} {depth} {set} {}",
                settings(&call),
                list(&lent)
            ),
            cubes_outcome(answer, &out),
        )
    });
    Table {
        name: given.name("cubes"),
        kind: "CubesOutcome",
        rows: rows.collect(),
    }
}

/// The call gets up to four seeds that run into its stop slice within the limit, and their total, where a small register has any.
pub fn run_in(random: &mut Random, call: &mut Call) {
    if call.cells > 5 {
        return;
    }
    let length = |seed| Some((seed, alone(call, seed).ok()?));
    let running: Vec<(u64, usize)> = (0..1 << call.cells).filter_map(length).collect();
    if running.is_empty() {
        return;
    }
    (call.seeds, call.slices) = (Vec::new(), 0);
    for _ in 0..random.between(1, 4) {
        let (seed, slices) = running[random.between(0, running.len() - 1)];
        call.seeds.push(seed);
        call.slices += slices;
    }
}

/// The question and answer of a list with a lent buffer of so many entries.
pub fn list_row(call: &Call, room: usize) -> (String, String) {
    let lent = vec![77; room];
    let mut out = lent.clone();
    let answer = call.expand(&call.seeds, &mut out);
    let rest = format!("{} {} {}", call.slices, list(&call.seeds), list(&lent));
    (
        format!("expand_list {} {} {rest}", settings(call), slice(call.stop)),
        outcome(answer, &out),
    )
}

pub fn lists(random: &mut Random, given: Given, count: usize) -> Table {
    let rows = (0..count).map(|_| {
        let mut call = small(random, given);
        match random.below(4) {
            0 => call.slices = random.between(1, 12),
            1 | 2 => run_in(random, &mut call),
            _ => {}
        }
        if random.one_in(6) {
            call.seeds.push(random.bits(6));
        }
        list_row(&call, random.between(0, 14))
    });
    Table {
        name: given.name("lists"),
        kind: "Outcome",
        rows: rows.collect(),
    }
}
