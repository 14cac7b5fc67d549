// Holds tests of the inverted chains against other ways: all masks of up to 4 chains against
// the brute force and a model that compares characters, and 64 chains all inverted.
// Follows document 02, R-4, and R-5 for the last seed.

mod common;

use common::cores::{counter, free, steps_before_stop, Core};
use common::{one, refused, set, Random, LIMIT};
use second::*;

/// Register R of document 01 with the stop slice and these chains inverted.
fn r(invert: u64, stop: &str) -> Core {
    Core {
        cells: 3,
        taps: 6,
        invert,
        masks: vec![1, 4],
        stop: one(stop),
    }
}

/// The characters that come out of the chains at a state: those of the chains in the mask
/// are turned.
fn came_out(core: &Core, state: u64) -> String {
    let mut text = String::new();
    for (place, mask) in core.masks.iter().enumerate() {
        let ones = (0..core.cells).filter(|cell| mask & state & (1 << cell) != 0);
        let turned = (core.invert >> place) % 2;
        let bit = (ones.count() as u64 + turned) % 2;
        text.push(if bit == 1 { '1' } else { '0' });
    }
    text
}

/// True if each character is x or the one that came out.
fn matches(wanted: &str, came: &str) -> bool {
    let mut pairs = wanted.chars().zip(came.chars());
    pairs.all(|(asked, bit)| asked == 'x' || asked == bit)
}

/// The lowest covering state, by comparing characters.
fn lowest(core: &Core, spec: &[u64], bits: &[u64]) -> Option<u64> {
    let chains = core.masks.len();
    let stop = slice_text(chains, core.stop.0, core.stop.1);
    let wanted: Vec<String> = (0..spec.len())
        .map(|t| slice_text(chains, spec[t], bits[t]))
        .collect();
    let covers = |&state: &u64| {
        let mut now = state;
        for text in &wanted {
            let came = came_out(core, now);
            if !matches(text, &came) || matches(&stop, &came) {
                return false;
            }
            now = step(core.cells, core.taps, now);
        }
        matches(&stop, &came_out(core, now))
    };
    (0..1 << core.cells).find(covers)
}

/// All slices of 2 chains; the last has no specified position.
const PAIRS: [&str; 9] = ["00", "01", "0x", "10", "11", "1x", "x0", "x1", "xx"];

/// The number of covered windows of two slices, of all 81, by both ways of search.
fn covered_pairs(core: &Core) -> usize {
    let mut covered = 0;
    for first in PAIRS {
        for last in PAIRS {
            let (spec, bits) = set(&[first, last]);
            let exact = core.window(2, &spec, &bits);
            assert_eq!(core.brute_window(2, &spec, &bits), Some(exact));
            covered += usize::from(exact.is_ok());
        }
    }
    covered
}

#[test]
fn all_windows_of_two_slices() {
    // All registers of 3 cells with 2 chains, all inversions, all stop slices.
    let (mut covered, mut all) = (0, 0);
    for (taps, first) in (4..8).flat_map(|taps| (1..8).map(move |mask| (taps, mask))) {
        for (second, invert) in (1..8).flat_map(|mask| (0..4).map(move |i| (mask, i))) {
            for stop in &PAIRS[..8] {
                let core = Core {
                    taps,
                    masks: vec![first, second],
                    ..r(invert, stop)
                };
                covered += covered_pairs(&core);
                all += 81;
            }
        }
    }
    assert_eq!(all, 508_032);
    assert!(covered > 50_000 && covered < all / 2, "{covered}");
}

/// A small register of 1 to 4 chains and a set for it.
fn small_of(random: &mut Random, chains: u64, most_slices: u64) -> (Core, Vec<u64>, Vec<u64>) {
    let cells = random.between(1, 6);
    let share = [0, 10, 25, 50][random.below(4) as usize];
    let count = random.between(1, most_slices);
    let (spec, bits) = random.slices(count, chains, share);
    let core = Core {
        cells,
        taps: random.taps(cells),
        invert: 0,
        masks: random.masks(cells, chains),
        stop: random.stop(chains, 50),
    };
    (core, spec, bits)
}

#[test]
fn all_masks_on_windows() {
    let mut random = Random(52);
    let (mut covered, mut not_covered, mut changed) = ([0; 5], [0; 5], [0; 5]);
    for (chains, _) in (1..=4).flat_map(|chains| (0..1000).map(move |n| (chains, n))) {
        let (mut core, spec, bits) = small_of(&mut random, chains, 5);
        let plain = core.window(LIMIT, &spec, &bits);
        for invert in 0..1 << chains {
            core.invert = invert;
            let exact = core.window(LIMIT, &spec, &bits);
            assert_eq!(core.brute_window(LIMIT, &spec, &bits), Some(exact));
            let wanted = lowest(&core, &spec, &bits);
            assert_eq!(exact, wanted.map_or(refused(7, 0), Ok));
            for state in 0..1 << core.cells {
                let covers = core.covers(LIMIT, &spec, &bits, state);
                assert!(!covers || wanted.is_some_and(|low| low <= state));
                assert!(covers || wanted != Some(state));
            }
            covered[chains as usize] += usize::from(exact.is_ok());
            not_covered[chains as usize] += usize::from(exact.is_err());
            changed[chains as usize] += usize::from(exact != plain);
        }
    }
    let counts = [covered, not_covered, changed];
    assert!(
        counts.iter().all(|by| by[1..].iter().all(|&n| n > 300)),
        "{counts:?}"
    );
}

/// Compares the answer for a set with the brute force, and what its seeds deliver with the
/// set, character by character. The answer.
fn judged(core: &Core, limit: u64, spec: &[u64], bits: &[u64]) -> Result<Vec<u64>, Refused> {
    let found = core.brute_set(limit, spec, bits).unwrap();
    let answer = core.set(limit, spec, bits);
    assert!(found.rule_is_best(spec.len()));
    let Ok(seeds) = &answer else {
        assert_eq!(found.fewest, None);
        assert_eq!(answer, refused(8, found.longest_start as u64));
        return answer;
    };
    assert_eq!((found.fewest, &found.seeds), (Some(seeds.len()), seeds));
    let slices = core.expand(limit, spec.len() as u64, seeds).unwrap();
    let chains = core.masks.len();
    let mut place = 0;
    for (&seed, length) in seeds.iter().zip(core.lengths(spec.len(), seeds)) {
        assert!(length as u64 <= limit);
        let mut state = seed;
        for _ in 0..length {
            let came = came_out(core, state);
            assert!(matches(
                &slice_text(chains, spec[place], bits[place]),
                &came
            ));
            assert_eq!(one(&came).1, slices[place]);
            state = step(core.cells, core.taps, state);
            place += 1;
        }
    }
    assert_eq!(place, spec.len());
    answer
}

#[test]
fn all_masks_on_sets() {
    let mut random = Random(53);
    let (mut cut, mut not_cut, mut changed) = ([0; 5], [0; 5], [0; 5]);
    for (chains, _) in (1..=4).flat_map(|chains| (0..250).map(move |n| (chains, n))) {
        let (mut core, spec, bits) = small_of(&mut random, chains, 10);
        let at = chains as usize;
        for limit in [1, 2, 3, LIMIT] {
            core.invert = 0;
            let plain = core.set(limit, &spec, &bits);
            for invert in 0..1 << chains {
                core.invert = invert;
                let answer = judged(&core, limit, &spec, &bits);
                cut[at] += usize::from(answer.is_ok());
                not_cut[at] += usize::from(answer.is_err());
                changed[at] += usize::from(answer != plain);
            }
        }
    }
    let counts = [cut, not_cut, changed];
    assert!(
        counts.iter().all(|by| by[1..].iter().all(|&n| n > 200)),
        "{counts:?}"
    );
}

#[test]
fn all_masks_on_cubes() {
    let mut random = Random(54);
    let mut accepted = 0;
    for (chains, _) in (1..=4).flat_map(|chains| (0..200).map(move |n| (chains, n))) {
        let (mut core, spec, bits) = small_of(&mut random, chains, 8);
        let stop = stop_slice(chains, &spec, &bits);
        for invert in 0..1 << chains {
            let mut out = vec![9; spec.len()];
            let (cells, taps, masks) = (core.cells, core.taps, &core.masks);
            let answer = encode_cubes(cells, taps, LIMIT, invert, masks, 1, &spec, &bits, &mut out);
            // The mask changes neither the stop slice nor refusal 6.
            let stop = match stop {
                Ok(stop) => stop,
                Err(refused) => {
                    assert_eq!(answer, Err(refused));
                    continue;
                }
            };
            (core.invert, core.stop) = (invert, stop);
            let seeds = judged(&core, LIMIT, &spec, &bits);
            let wanted = seeds.clone().map(|seeds| (stop.0, stop.1, seeds.len()));
            assert_eq!(answer, wanted);
            let written = seeds.unwrap_or_default();
            assert_eq!(out[..written.len()], written);
            accepted += usize::from(answer.is_ok());
        }
    }
    assert!(accepted > 500, "{accepted}");
}

#[test]
fn all_masks_on_seeds() {
    let mut random = Random(55);
    let mut counts = [0; 15];
    for (chains, _) in (1..=4).flat_map(|chains| (0..200).map(move |n| (chains, n))) {
        let (mut core, _, _) = small_of(&mut random, chains, 1);
        let stop = slice_text(chains as usize, core.stop.0, core.stop.1);
        for (invert, seed) in (0..1 << chains).flat_map(|i| (0..8).map(move |s| (i, s))) {
            core.invert = invert;
            let mut wanted = Vec::new();
            let mut state = seed;
            while wanted.len() <= 4 && !matches(&stop, &came_out(&core, state)) {
                wanted.push(one(&came_out(&core, state)).1);
                state = step(core.cells, core.taps, state);
            }
            let wanted = match wanted.len() {
                _ if seed >= 1 << core.cells => refused(10, 0),
                0 => refused(11, 0),
                5.. => refused(12, 0),
                1 => refused(14, 1),
                _ => Ok(wanted),
            };
            // The seed is the last: 12 needs more slices left than the limit.
            let total = match &wanted {
                Ok(slices) => slices.len() as u64,
                Err(refused) if refused.number == 12 => 5,
                Err(_) => 2,
            };
            let answer = core.expand(4, total, &[seed]);
            assert_eq!(answer, wanted);
            counts[answer.map_or_else(|refused| refused.number as usize, |_| 0)] += 1;
        }
    }
    for cause in [0, 10, 11, 12, 14] {
        assert!(counts[cause] > 500, "{counts:?}");
    }
}

/// The same register with nothing inverted, and its stop slice turned at inverted chains.
fn turned(core: &Core) -> Core {
    Core {
        invert: 0,
        masks: core.masks.clone(),
        stop: (core.stop.0, (core.stop.1 ^ core.invert) & core.stop.0),
        ..*core
    }
}

/// The bits of a set, turned at the mask's specified positions.
fn turned_bits(invert: u64, spec: &[u64], bits: &[u64]) -> Vec<u64> {
    let slices = spec.iter().zip(bits);
    slices.map(|(s, b)| b ^ (invert & s)).collect()
}

#[test]
fn the_same_as_turned_slices() {
    let mut random = Random(56);
    let (mut cut, mut not_cut) = (0, 0);
    for round in 0..200 {
        let chains = [64, random.between(3, 63)][round % 2];
        let all = u64::MAX >> (64 - chains);
        let core = Core {
            cells: 64,
            taps: random.taps(64),
            invert: [all, random.word() & all, 1 << (chains - 1)][round % 3],
            masks: random.masks(64, chains),
            stop: random.stop(chains, 4),
        };
        let share = [1, 10, 40][round % 3];
        let (spec, bits) = random.slices(24, chains, share);
        let limit = random.between(1, 12);
        let other = turned(&core);
        let other_bits = turned_bits(core.invert, &spec, &bits);
        let answer = core.set(limit, &spec, &bits);
        assert_eq!(answer, other.set(limit, &spec, &other_bits));
        let (first, other_first) = (&bits[..limit as usize], &other_bits[..limit as usize]);
        let places = &spec[..limit as usize];
        let seed = core.window(limit, places, first);
        assert_eq!(seed, other.window(limit, places, other_first));
        assert!(seed.is_err() || core.covers(limit, places, first, seed.unwrap()));
        let Ok(seeds) = answer else {
            not_cut += 1;
            continue;
        };
        cut += 1;
        let plain = other.expand(limit, 24, &seeds).unwrap();
        let wanted: Vec<u64> = plain.iter().map(|v| v ^ core.invert).collect();
        assert_eq!(core.expand(limit, 24, &seeds), Ok(wanted));
    }
    assert!(cut > 60 && not_cut > 20, "{cut} {not_cut}");
}

#[test]
fn all_64_chains_inverted() {
    // A chain for each cell: the slice is the state with every bit turned.
    let core = Core {
        cells: 64,
        taps: 1 << 63,
        invert: u64::MAX,
        masks: (0..64).map(|cell| 1 << cell).collect(),
        stop: (1, 1),
    };
    for state in [0, 1, 0x1234_5678_9abc_def0, u64::MAX] {
        assert_eq!(slice(&core.masks, u64::MAX, state), !state);
    }
    // Cell 0 gets cell 63, then 62 and so on; the stop shows when it gets a 0.
    for m in 1..=LIMIT as usize {
        let slices = free(m as u64);
        let answer = core.window(LIMIT, &slices, &slices);
        // Cells 0 and 63 down to 65-m hold 1, cell 64-m holds 0.
        let wanted = match m {
            1..=63 => Ok(1 | !(u64::MAX >> (m - 1))),
            _ => refused(7, 0),
        };
        assert_eq!(answer, wanted, "{m}");
    }
    // Only the complement of a whole slice fits; it stops next if cell 63 holds 0.
    let bits = [0x7edc_ba98_7654_3210];
    let answer = core.window(LIMIT, &[u64::MAX], &bits);
    assert_eq!(answer, refused(7, 0));
    let bits = [0xfedc_ba98_7654_3210];
    let answer = core.window(LIMIT, &[u64::MAX], &bits);
    assert_eq!(answer, Ok(!bits[0]));
    assert_eq!(core.expand(LIMIT, 1, &[!bits[0]]), Ok(bits.to_vec()));
    // The state of ones never shows it, the state 0 at once.
    assert_eq!(core.expand(LIMIT, 257, &[u64::MAX]), refused(12, 0));
    assert_eq!(core.expand(LIMIT, 1, &[u64::MAX]), Ok(vec![0]));
    assert_eq!(core.expand(LIMIT, 1, &[0]), refused(11, 0));
}

#[test]
fn sets_of_2048_slices_inverted() {
    // The counter with all chains inverted stops at the state 1ff if its stop is turned.
    let before = steps_before_stop(&counter());
    let core = Core {
        invert: 0x1ff,
        stop: (0x1ff, 0),
        ..counter()
    };
    let slices = free(2048);
    for limit in [1, 2, 255, 256] {
        let seeds = core.set(limit, &slices, &slices).unwrap();
        assert_eq!(seeds.len() as u64, 2048u64.div_ceil(limit));
        assert_eq!(seeds[0], before[limit as usize]);
        let delivered = core.expand(limit, 2048, &seeds).unwrap();
        let first: Vec<u64> = before[1..=limit as usize].iter().rev().copied().collect();
        assert!(delivered
            .iter()
            .zip(first)
            .all(|(v, state)| *v == 0x1ff ^ state));
        let late = before[limit as usize + 1];
        assert_eq!(core.expand(limit, limit + 1, &[late]), refused(12, 0));
    }
    assert_eq!(core.set(1, &free(2049), &free(2049)), refused(3, 0));
}
