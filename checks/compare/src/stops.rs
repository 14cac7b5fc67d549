// The library's stop slices against the second program's: the answers for whole and damaged sets, and what its steps met.

use crate::inputs::damage_slice;
use crate::library::{self, Like, StopAnswer};
use crate::random::Random;
use crate::report::{same, Outcome};
use crate::seen::Seen;

/// What a call for a stop slice hands in.
#[derive(Clone, Debug)]
pub struct Set {
    pub chains: usize,
    pub specified: Vec<u64>,
    pub bits: Vec<u64>,
}

impl Set {
    /// A set of no slices yet.
    pub fn new(chains: usize) -> Set {
        Set {
            chains,
            specified: Vec::new(),
            bits: Vec::new(),
        }
    }

    pub fn push(&mut self, specified: u64, bits: u64) {
        self.specified.push(specified);
        self.bits.push(bits & specified);
    }

    /// Makes the set so many slices long; those added are all x.
    fn resize(&mut self, count: usize) {
        self.specified.resize(count, 0);
        self.bits.resize(count, 0);
    }
}

/// Each position is specified `percent` times in a hundred; at 0 all slices are all x.
fn loose(random: &mut Random, chains: usize, count: usize, percent: u64) -> Set {
    let mut set = Set::new(chains);
    for _ in 0..count {
        let specified = random.sparse(chains, percent);
        set.push(specified, random.word());
    }
    set
}

/// The word with its lowest `chains` bits turned round by fewer than `chains` places.
fn turned(word: u64, by: usize, chains: usize) -> u64 {
    let twice = u128::from(word) << by;
    let mask = u64::MAX >> (64 - chains);
    (twice | twice >> chains) as u64 & mask
}

/// A slice turned round by each number of places, and then its complement or itself again: many counts tie.
fn tied(random: &mut Random, chains: usize, count: usize) -> Set {
    let mut set = Set::new(chains);
    let specified = random.bits(chains);
    let bits = random.word() & specified;
    let flip = if random.one_in(2) { specified } else { 0 };
    for place in 0..count {
        let (round, by) = (place / chains, place % chains);
        let bits = if round % 2 == 1 { bits ^ flip } else { bits };
        set.push(turned(specified, by, chains), turned(bits, by, chains));
    }
    set
}

/// All fully specified slices in any order, without `missing` of them: with none missing the steps end with one in.
fn crowded(random: &mut Random, chains: usize, missing: usize) -> Set {
    let all = u64::MAX >> (64 - chains);
    let mut words: Vec<u64> = (0..=all).collect();
    random.shuffle(&mut words);
    let mut set = Set::new(chains);
    for &bits in &words[missing..] {
        set.push(all, bits);
    }
    set
}

/// Most patterns of two or three chains, and as many slices with an x or again: the steps often end with slices in where a pattern is free.
pub fn pressed(random: &mut Random) -> Set {
    let (chains, missing) = (random.between(2, 3), random.between(1, 2));
    let mut set = crowded(random, chains, missing);
    let again = random.between(0, set.specified.len());
    for place in 0..again {
        let x = 1 << random.between(0, chains - 1);
        let specified = set.specified[place] & !(x * random.below(3).min(1));
        set.push(specified, set.bits[place]);
    }
    set
}

fn small(random: &mut Random) -> Set {
    let (chains, count) = (random.between(1, 8), random.between(1, 12));
    let missing = random.between(0, 1);
    match random.below(10) {
        8 | 9 => pressed(random),
        0 => loose(random, chains, count, 0),
        1 => tied(random, chains, count),
        2 => crowded(random, chains.min(3), missing),
        _ => {
            let percent = [10, 30, 60, 90, 100][random.between(0, 4)];
            loose(random, chains, count, percent)
        }
    }
}

/// Few bits, but most slices have one at the last position or at another: the steps mostly begin there.
fn leaning(random: &mut Random, chains: usize, count: usize) -> Set {
    let mut set = loose(random, chains, count, 10);
    let at = [chains - 1, random.between(0, chains - 1)][random.between(0, 1)];
    for (specified, bits) in set.specified.iter_mut().zip(&mut set.bits) {
        if !random.one_in(4) {
            *specified |= 1 << at;
            *bits |= random.below(2) << at;
        }
    }
    set
}

fn wide(random: &mut Random) -> Set {
    let chains = [random.between(1, 64), 64][random.between(0, 1)];
    let count = random.between(1, 300);
    match random.below(4) {
        0 => tied(random, chains, count),
        1 => leaning(random, chains, count),
        _ => {
            let percent = [1, 5, 20, 50, 100][random.between(0, 4)];
            loose(random, chains, count, percent)
        }
    }
}

/// Damages one part of a set: its number of chains, its length, one of its lists or one of its slices.
fn damage(random: &mut Random, set: &mut Set) {
    match random.below(12) {
        0 => set.chains = 0,
        1 => set.chains = [65, 66, set.chains | 1 << 32, usize::MAX][random.between(0, 3)],
        2 => set.resize(0),
        3 => set.resize([2_048, 2_049, 2_050][random.between(0, 2)]),
        4 => drop(set.specified.pop()),
        5 => drop(set.bits.pop()),
        6 => set.specified.push(0),
        7 => set.bits.push(0),
        8 => set.specified.resize([0, 2_049][random.between(0, 1)], 0),
        9 => set.bits.resize([0, 2_049][random.between(0, 1)], 0),
        _ => damage_slice(random, set.chains, &mut set.specified, &mut set.bits),
    }
}

/// The library's answer for a set is the second program's.
pub fn compare(set: &Set, seen: &mut Seen) -> Outcome {
    let (chains, specified, bits) = (set.chains, &set.specified, &set.bits);
    let told = second::stop_slice(chains as u64, specified, bits);
    seen.answer(&told);
    if let Ok(trace) = second::stop_trace(chains as u64, specified, bits) {
        note_steps(chains, &trace, seen);
        if !trace.left.is_empty() && told.is_ok() {
            seen.note("a spare pattern");
        }
    }
    let ours = library::stop(chains, specified, bits);
    same("the stop slice", ours, StopAnswer::like(told))
        .map_err(|why| format!("{why} of {set:x?}"))?;
    Ok(1)
}

/// Notes what the second program met in its steps.
fn note_steps(chains: usize, trace: &second::StopTrace, seen: &mut Seen) {
    let mut unset = vec![true; chains];
    for (place, step) in trace.iterations.iter().enumerate() {
        let at = step.position as usize - 1;
        let counts = |at: usize| [step.zeros[at], step.ones[at]];
        let counted = counts(at)[1 - step.bit as usize];
        if place > 0 && counted == 0 {
            seen.note("a count of 0 that decides after the first step");
        }
        if counted > 0 && step.zeros[at] == step.ones[at] {
            seen.note("as many 0s as 1s where the greatest count is");
        }
        let mut later = (at + 1..chains).filter(|&other| unset[other]);
        if counted > 0 && later.any(|other| counts(other).contains(&counted)) {
            seen.note("the greatest count again to the right");
        }
        unset[at] = false;
    }
    if trace.left.is_empty() && !unset.contains(&true) {
        seen.note("a stop slice with every position set");
    }
    if trace.stop_spec >> 63 == 1 {
        seen.note("a stop slice with position 64 set");
    }
}

/// Sets of 2,048 and 2,049 slices. Each step removes half of the slices in or more, so of 2,048 some can stay in only up to 11 chains.
fn long(random: &mut Random) -> Vec<Set> {
    let mut sets = vec![
        crowded(random, 11, 0),
        crowded(random, 11, 1),
        crowded(random, 12, 2_048),
        tied(random, 64, 2_048),
        tied(random, 11, 2_048),
    ];
    for percent in [0, 1, 10, 50, 100] {
        sets.push(loose(random, 64, 2_048, percent));
        sets.push(loose(random, 11, 2_048, percent));
        sets.push(loose(random, 11, 2_049, percent));
    }
    let mut last = sets[0].clone();
    last.bits[2_047] |= 1 << 11;
    sets.push(last);
    sets
}

/// The stop slice of small, wide and long sets, whole and with up to three damages.
pub fn answers() -> Outcome {
    let mut random = Random(10);
    let mut seen = Seen::default();
    let mut count = 0;
    for round in 0..20_000 {
        let mut set = small(&mut random);
        // half of them stay whole
        for _ in 2..round % 6 {
            damage(&mut random, &mut set);
        }
        count += compare(&set, &mut seen)?;
    }
    for round in 0..2_000 {
        let mut set = wide(&mut random);
        for _ in 0..round % 3 {
            damage(&mut random, &mut set);
        }
        count += compare(&set, &mut seen)?;
    }
    for set in long(&mut random) {
        count += compare(&set, &mut seen)?;
    }
    seen.require(&[
        "accepted",
        "refusal 2",
        "refusal 3",
        "refusal 4",
        "refusal 6",
        "a count of 0 that decides after the first step",
        "as many 0s as 1s where the greatest count is",
        "the greatest count again to the right",
        "a stop slice with every position set",
        "a stop slice with position 64 set",
        "a spare pattern",
    ])?;
    Ok(count)
}
