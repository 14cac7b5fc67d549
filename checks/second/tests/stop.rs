// Holds tests of the stop slice of a set, where the steps decide and where they end with
// slices in.
// Follows document 02, R-1.

mod common;

use common::{one, refused, set, Random, LIMIT};
use second::*;
use std::collections::BTreeSet;

/// The six slices of document 02.
const SIX: [&str; 6] = ["1x", "1x", "1x", "10", "00", "01"];

/// Who decided a set.
#[derive(Clone, Copy, Debug, PartialEq, Eq)]
enum By {
    Steps,
    Spare,
    Refusal,
}

/// The number whose lowest `chains` bits are 1.
fn full(chains: u64) -> u64 {
    u64::MAX >> (64 - chains)
}

/// The patterns of the fully specified slices.
fn taken(chains: u64, spec: &[u64], bits: &[u64]) -> BTreeSet<u64> {
    let slices = spec.iter().zip(bits);
    slices
        .filter(|(&places, _)| places == full(chains))
        .map(|(_, &values)| values)
        .collect()
}

/// True if a slice has the stop's bit, specified, at each specified position of the stop.
/// Goes by the characters.
fn any_meets(chains: u64, stop: (u64, u64), spec: &[u64], bits: &[u64]) -> bool {
    let stop = slice_text(chains as usize, stop.0, stop.1);
    spec.iter().zip(bits).any(|(&places, &values)| {
        let slice = slice_text(chains as usize, places, values);
        let mut both = stop.chars().zip(slice.chars());
        both.all(|(wanted, found)| wanted == 'x' || wanted == found)
    })
}

/// Compares the answer for a set with what document 02 says of it.
fn judged(chains: u64, spec: &[u64], bits: &[u64]) -> By {
    let trace = stop_trace(chains, spec, bits).unwrap();
    let taken = taken(chains, spec, bits);
    let all_taken = chains < 12 && taken.len() == 1 << chains;
    let answer = stop_slice(chains, spec, bits);
    let Ok(stop) = answer else {
        assert_eq!(answer, refused(6, 0));
        assert!(all_taken && !trace.left.is_empty());
        return By::Refusal;
    };
    assert!(!all_taken);
    assert_eq!(check_stop(chains, stop.0, stop.1), Ok(()));
    assert!(!any_meets(chains, stop, spec, bits));
    if trace.left.is_empty() {
        assert_eq!(stop, (trace.stop_spec, trace.stop_bits));
        return By::Steps;
    }
    assert_eq!(stop.0, full(chains));
    assert!(!taken.contains(&stop.1));
    assert!((0..stop.1).all(|pattern| taken.contains(&pattern)));
    By::Spare
}

/// As `judged`, and asks the brute force whether there is a stop slice.
fn judged_by_brute(chains: u64, spec: &[u64], bits: &[u64]) -> By {
    let by = judged(chains, spec, bits);
    assert_eq!(brute_stop_exists(chains, spec, bits), by != By::Refusal);
    by
}

#[test]
fn the_six_slices_of_document_02() {
    let (spec, bits) = set(&SIX);
    let trace = stop_trace(2, &spec, &bits).unwrap();
    assert_eq!(trace.left, [5]);
    assert_eq!((trace.stop_spec, trace.stop_bits), one("01"));
    assert_eq!(stop_slice(2, &spec, &bits), Ok(one("11")));
    assert_eq!(judged_by_brute(2, &spec, &bits), By::Spare);
    // With 11 among the slices all four patterns are taken.
    let (spec, bits) = set(&[&SIX[..], &["11"]].concat());
    assert_eq!(stop_slice(2, &spec, &bits), refused(6, 0));
    assert_eq!(judged_by_brute(2, &spec, &bits), By::Refusal);
}

#[test]
fn the_leftmost_chain_has_the_least_weight() {
    // 000 and 010 are taken; 100, which is 1, comes before 001, which is 4.
    let mut texts = vec!["1xx"; 6];
    texts.extend(["0x1", "0x1", "0x1", "000", "010"]);
    let (spec, bits) = set(&texts);
    assert_eq!(judged_by_brute(3, &spec, &bits), By::Spare);
    assert_eq!(stop_slice(3, &spec, &bits), Ok(one("100")));
}

#[test]
fn a_pattern_below_the_taken_ones() {
    let (spec, bits) = set(&["0x", "0x", "10", "11"]);
    assert_eq!(judged_by_brute(2, &spec, &bits), By::Spare);
    assert_eq!(stop_slice(2, &spec, &bits), Ok(one("00")));
}

/// Judges every set of 1 to `most` slices, in every order and with repeats. How many the
/// steps decided, how many the spare pattern, and how many were refused.
fn enumerate(chains: u64, most: u32) -> [usize; 3] {
    let mut slices = Vec::new();
    for spec in 0..=full(chains) {
        for bits in (0..=spec).filter(|bits| bits & !spec == 0) {
            slices.push((spec, bits));
        }
    }
    assert_eq!(slices.len(), 3usize.pow(chains as u32));
    let mut found = [0; 3];
    for count in 1..=most {
        for mut number in 0..slices.len().pow(count) {
            let (mut spec, mut bits) = (Vec::new(), Vec::new());
            for _ in 0..count {
                let (places, values) = slices[number % slices.len()];
                spec.push(places);
                bits.push(values);
                number /= slices.len();
            }
            found[judged_by_brute(chains, &spec, &bits) as usize] += 1;
        }
    }
    found
}

#[test]
fn all_sets_of_2_chains() {
    let [steps, spare, refusal] = enumerate(2, 4);
    assert_eq!(steps + spare + refusal, 9 + 81 + 729 + 6561);
    // The four patterns in every order.
    assert_eq!(refusal, 24);
    assert!(spare > 0);
}

#[test]
fn all_sets_of_1_chain() {
    let [steps, spare, refusal] = enumerate(1, 6);
    assert_eq!(steps + spare + refusal, 3 + 9 + 27 + 81 + 243 + 729);
    // Both bits occur; with one of them missing the steps find the other.
    let both = |count: u32| 3usize.pow(count) + 1 - 2 * 2usize.pow(count);
    assert_eq!(refusal, (1..=6).map(both).sum());
    assert_eq!(spare, 0);
}

#[test]
fn all_sets_of_3_chains() {
    // Each step removes at least half of the slices, so 7 or fewer are out in time.
    assert_eq!(enumerate(3, 3), [27 + 729 + 19683, 0, 0]);
}

#[test]
fn random_sets_up_to_8_chains() {
    let mut random = Random(31);
    let mut found = [0; 3];
    for round in 0..1500 {
        let chains = random.between(1, if round % 10 == 0 { 8 } else { 5 });
        let count = random.between(1, 6 << chains);
        let share = random.between(60, 100);
        let (spec, bits) = random.slices(count, chains, share);
        found[judged_by_brute(chains, &spec, &bits) as usize] += 1;
    }
    assert!(found.iter().all(|&sets| sets > 30), "{found:?}");
}

/// Half of the slices have 0 in chain 1 and x elsewhere; half of the others have 0 in chain
/// 2 and 1 before it; and so on. The steps end with the last slice in, which is all 1.
fn halving(chains: u64) -> (Vec<u64>, Vec<u64>) {
    let (mut spec, mut bits) = (Vec::new(), Vec::new());
    for chain in 1..=chains {
        for _ in 0..1 << (chains - chain) {
            spec.push(full(chain));
            bits.push(full(chain) >> 1);
        }
    }
    spec.push(full(chains));
    bits.push(full(chains));
    (spec, bits)
}

#[test]
fn fewest_slices_that_the_steps_leave_in() {
    for chains in 2..=11 {
        let (spec, bits) = halving(chains);
        assert_eq!(spec.len(), 1 << chains);
        assert_eq!(judged(chains, &spec, &bits), By::Spare);
        assert_eq!(stop_slice(chains, &spec, &bits), Ok((full(chains), 0)));
        let trace = stop_trace(chains, &spec[1..], &bits[1..]).unwrap();
        assert!(trace.left.is_empty());
    }
}

/// All patterns of the chains, each fully specified.
fn all_patterns(chains: u64) -> (Vec<u64>, Vec<u64>) {
    (0..=full(chains)).map(|bits| (full(chains), bits)).unzip()
}

#[test]
fn all_patterns_of_1_to_11_chains() {
    for chains in 1..=11 {
        let (spec, mut bits) = all_patterns(chains);
        assert_eq!(judged(chains, &spec, &bits), By::Refusal);
        assert_eq!(spare_pattern(chains, &spec, &bits), None);
        bits.reverse();
        assert_eq!(judged(chains, &spec, &bits), By::Refusal);
        bits.rotate_left(spec.len() / 3);
        assert_eq!(judged(chains, &spec, &bits), By::Refusal);
    }
}

/// All patterns but `missing`, of which one position is x in the slice that stands for it.
fn all_but(chains: u64, missing: u64, position: u64) -> (Vec<u64>, Vec<u64>) {
    let (mut spec, mut bits) = all_patterns(chains);
    spec[missing as usize] &= !(1 << position);
    bits[missing as usize] &= !(1 << position);
    (spec, bits)
}

#[test]
fn all_patterns_but_one_of_1_to_11_chains() {
    for chains in 1..=11 {
        let mut spare = 0;
        for missing in 0..=full(chains) {
            // Only the missing pattern is a stop slice, whoever finds it.
            let wanted = Ok((full(chains), missing));
            let (mut spec, mut bits) = all_but(chains, missing, chains - 1);
            assert_eq!(stop_slice(chains, &spec, &bits), wanted);
            assert_eq!(spare_pattern(chains, &spec, &bits), Some(missing));
            let trace = stop_trace(chains, &spec, &bits).unwrap();
            spare += usize::from(!trace.left.is_empty());
            spec.swap_remove(missing as usize);
            bits.swap_remove(missing as usize);
            if !spec.is_empty() {
                assert_eq!(stop_slice(chains, &spec, &bits), wanted);
            }
        }
        assert!(chains == 1 || spare > 0, "{chains}");
    }
}

#[test]
fn sets_of_12_to_64_chains() {
    let mut random = Random(32);
    let low: Vec<u64> = (0..2048).collect();
    for chains in 12..=64 {
        let whole = vec![full(chains); 2048];
        assert_eq!(judged(chains, &whole, &low), By::Steps);
        let high: Vec<u64> = low.iter().map(|&bits| full(chains) - bits).collect();
        assert_eq!(judged(chains, &whole, &high), By::Steps);
        let (spec, bits) = random.slices(2048, chains, 98);
        assert_eq!(judged(chains, &spec, &bits), By::Steps);
        // The slices that the steps at 11 chains leave in have x in the further chains.
        let (spec, bits) = halving(11);
        assert_eq!(judged(chains, &spec, &bits), By::Steps);
    }
}

#[test]
fn spare_patterns_of_64_chains() {
    let all = u64::MAX;
    let spare = |spec: &[u64], bits: &[u64]| spare_pattern(64, spec, bits);
    assert_eq!(spare(&[], &[]), Some(0));
    assert_eq!(spare(&[all], &[0]), Some(1));
    assert_eq!(spare(&[all, all], &[all, 1]), Some(0));
    assert_eq!(spare(&[all, all, all, all], &[1, 0, all, 0]), Some(2));
    assert_eq!(spare(&[all >> 1, all - 1], &[0, 0]), Some(0));
    assert_eq!(spare(&[all, all, all - 4], &[1, 0, 2]), Some(2));
    let low: Vec<u64> = (0..2048).rev().collect();
    assert_eq!(spare(&[all; 2048], &low), Some(2048));
    assert_eq!(stop_slice(64, &[all; 2], &[0, all]), Ok((3, 1)));
    assert_eq!(stop_slice(64, &[0], &[0]), Ok((1, 1)));
}

/// A sheet of cubes of one slice.
fn sheet(cells: u64, taps: u64, masks: &[u64], spec: &[u64], bits: &[u64]) -> String {
    let mut text = format!("cells={cells}\ntaps={taps:x}\nchains={}\n", masks.len());
    for mask in masks {
        text.push_str(&format!("chain={mask:x}\n"));
    }
    text.push_str("depth=1\n");
    for (&places, &values) in spec.iter().zip(bits) {
        let slice = slice_text(masks.len(), places, values);
        text.push_str(&format!("slice={slice}\n"));
    }
    text
}

#[test]
fn encoding_of_the_six_slices() {
    let (spec, bits) = set(&SIX);
    let mut out = [99; 6];
    let answer = encode_cubes(6, 0x21, LIMIT, 0, &[1, 8], 3, &spec, &bits, &mut out);
    let (stop_spec, stop_bits, count) = answer.unwrap();
    assert_eq!((stop_spec, stop_bits), one("11"));
    let mut same = [99; 6];
    let answer = encode_set(
        6,
        0x21,
        LIMIT,
        0,
        &[1, 8],
        stop_spec,
        stop_bits,
        &spec,
        &bits,
        &mut same,
    );
    assert_eq!((answer, same), (Ok(count), out));
    let list = encode_text(sheet(6, 0x21, &[1, 8], &spec, &bits).as_bytes());
    let text = String::from_utf8(list.clone()).unwrap();
    assert!(text.contains("\nstop=11\nslices=6\nseed="), "{text}");
    assert_eq!(text.matches("seed=").count(), count);
    let slices = String::from_utf8(expand_text(&list)).unwrap();
    assert_eq!(slices.lines().count(), 6);
    for (place, line) in slices.lines().enumerate() {
        let (_, shown) = one(line.strip_prefix("slice=").unwrap());
        assert!(agrees(spec[place], bits[place], shown));
    }
}

#[test]
fn sheets_that_the_spare_pattern_decides() {
    let mut random = Random(33);
    let (mut accepted, mut cannot_be_cut, mut no_stop) = (0, 0, 0);
    for _ in 0..4000 {
        let chains = random.between(2, 3);
        let count = random.between(4, 16);
        let (spec, bits) = random.slices(count, chains, 70);
        let by = judged(chains, &spec, &bits);
        if by == By::Steps {
            continue;
        }
        let cells = random.between(3, 8);
        let (taps, masks) = (random.taps(cells), random.masks(cells, chains));
        let text = sheet(cells, taps, &masks, &spec, &bits);
        let list = String::from_utf8(encode_text(text.as_bytes())).unwrap();
        let printed = BruteText::Printed(list.clone().into_bytes());
        assert_eq!(brute_text(text.as_bytes()), printed);
        if by == By::Refusal {
            assert_eq!(list, "refused=6\nat=0\n");
            no_stop += 1;
        } else if list.starts_with("refused=8\n") {
            cannot_be_cut += 1;
        } else {
            let spare = spare_pattern(chains, &spec, &bits).unwrap();
            let stop = slice_text(chains as usize, full(chains), spare);
            assert!(list.contains(&format!("\nstop={stop}\n")), "{list}");
            accepted += 1;
        }
    }
    let found = [accepted, cannot_be_cut, no_stop];
    assert!(found.iter().all(|&sheets| sheets > 20), "{found:?}");
}
