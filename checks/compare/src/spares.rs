// Document 02, R-1: a stop slice wherever there is one. The library against the second program, against brute force over all stop slices, and on sets whose one answer is known.

use crate::random::Random;
use crate::report::{same, Outcome};
use crate::seen::Seen;
use crate::stops::{compare, Set};

/// All slices of so many chains, as specified positions and bits.
pub fn all_slices(chains: usize) -> Vec<(u64, u64)> {
    let patterns = 1 << chains;
    let mut slices = Vec::new();
    for specified in 0..patterns {
        slices.extend(
            (0..patterns)
                .filter(|bits| bits & !specified == 0)
                .map(|bits| (specified, bits)),
        );
    }
    slices
}

/// The set of so many slices, each a digit of the number in the base of all slices.
pub fn numbered(chains: usize, slices: &[(u64, u64)], length: usize, number: usize) -> Set {
    let mut set = Set::new(chains);
    let mut rest = number;
    for _ in 0..length {
        let (specified, bits) = slices[rest % slices.len()];
        set.push(specified, bits);
        rest /= slices.len();
    }
    set
}

/// The answer of a set is the second program's, and there is one exactly when some stop slice is good.
fn against_brute_force(set: &Set, seen: &mut Seen) -> Outcome {
    let count = compare(set, seen)?;
    let chains = set.chains as u64;
    let told = second::stop_slice(chains, &set.specified, &set.bits);
    let exists = second::brute_stop_exists(chains, &set.specified, &set.bits);
    same(
        &format!("whether there is a stop slice of {set:x?}"),
        told.is_ok(),
        exists,
    )?;
    Ok(count)
}

/// Every set of up to six slices of one chain, of up to four of two chains and of up to three of three.
pub fn every_small_set() -> Outcome {
    let mut seen = Seen::default();
    let mut count = 0;
    for (chains, most) in [(1, 6), (2, 4), (3, 3)] {
        let slices = all_slices(chains);
        for length in 1..=most {
            for number in 0..slices.len().pow(length as u32) {
                let set = numbered(chains, &slices, length, number);
                count += against_brute_force(&set, &mut seen)?;
            }
        }
    }
    seen.require(&["accepted", "refusal 6", "a spare pattern"])?;
    Ok(count)
}

/// The patterns of so many chains without the missing one, in any order, and some slices with an x among them.
fn without(random: &mut Random, chains: usize, missing: Option<u64>) -> Set {
    let all = u64::MAX >> (64 - chains);
    let mut slices: Vec<(u64, u64)> = (0..=all)
        .filter(|&bits| Some(bits) != missing)
        .map(|bits| (all, bits))
        .collect();
    let space = (2_048 - slices.len()).min(2 << chains);
    for _ in 0..random.between(0, space) {
        let specified = random.bits(chains) & !(1 << random.between(0, chains - 1));
        slices.push((specified, random.word() & specified));
    }
    random.shuffle(&mut slices);
    let mut set = Set::new(chains);
    for (specified, bits) in slices {
        set.push(specified, bits);
    }
    set
}

/// Sets that take up all patterns of 1 to 11 chains but one, whose stop slice is that one, and sets that take up all.
pub fn all_but_one() -> Outcome {
    let mut random = Random(16);
    let mut seen = Seen::default();
    let mut count = 0;
    for chains in 1..=11 {
        let all = u64::MAX >> (64 - chains);
        let mut missing: Vec<u64> = (0..=all).collect();
        random.shuffle(&mut missing);
        missing.truncate(64);
        missing.extend([0, all]);
        for pattern in missing {
            let set = without(&mut random, chains, Some(pattern));
            count += compare(&set, &mut seen)?;
            let told = second::stop_slice(chains as u64, &set.specified, &set.bits);
            same(
                &format!("the stop slice of {set:x?}"),
                told,
                Ok((all, pattern)),
            )?;
        }
        let full = without(&mut random, chains, None);
        count += compare(&full, &mut seen)?;
        let told = second::stop_slice(chains as u64, &full.specified, &full.bits);
        same(
            &format!("the refusal of {full:x?}"),
            told,
            crate::call::refused(6, 0),
        )?;
    }
    seen.require(&["accepted", "refusal 6", "a spare pattern"])?;
    Ok(count)
}

/// Fully specified slices of 12 to 64 chains, equal ones among them: from 12 chains on the steps always decide.
pub fn many_chains() -> Outcome {
    let mut random = Random(17);
    let mut seen = Seen::default();
    let mut count = 0;
    for chains in (12..=64).chain([64; 20]) {
        let few = random.between(1, 11);
        let mut set = Set::new(chains);
        let all = u64::MAX >> (64 - chains);
        for place in 0..2_048 {
            // the patterns of a few chains, the other chains alike
            let low = place % (1 << few);
            set.push(all, low << random.between(0, chains - few));
        }
        count += compare(&set, &mut seen)?;
        let trace = second::stop_trace(chains as u64, &set.specified, &set.bits)
            .map_err(|refused| format!("{refused:?}"))?;
        same("the slices in at the end", trace.left.len(), 0)?;
    }
    Ok(count)
}
