// Holds tests of the window limit in each call, against the brute force and against an
// enumeration of all cuttings. The window line of the text is tested in limit_text.rs.
// Follows document 02, R-3, and R-5 for the last seed.

mod common;

use common::cores::{counter, free, small, steps_before_stop, Core};
use common::{one, refused, set, Random, LIMIT};
use second::*;

/// Limits inside the range and at its edges, and limits outside it.
const LAWFUL: [u64; 4] = [1, 2, 255, 256];
const UNLAWFUL: [u64; 3] = [0, 257, u64::MAX];

#[test]
fn each_call_at_unlawful_limits() {
    let core = counter();
    let before = steps_before_stop(&core);
    for limit in UNLAWFUL {
        assert_eq!(check_limit(limit), refused(3, 0));
        for count in [1, 2, 255, 256, 257] {
            let slices = free(count);
            let state = before[count as usize];
            assert_eq!(core.window(limit, &slices, &slices), refused(3, 0));
            let brute = core.brute_window(limit, &slices, &slices);
            assert_eq!(brute, Some(refused(3, 0)));
            assert_eq!(core.set(limit, &slices, &slices), refused(3, 0));
            assert_eq!(core.brute_set(limit, &slices, &slices), refused(3, 0));
            assert_eq!(core.expand(limit, count, &[state]), refused(3, 0));
            assert!(!core.covers(limit, &slices, &slices, state));
            let mut out = [9; 300];
            let masks = &core.masks;
            let answer = encode_cubes(9, 0x108, limit, 0, masks, 1, &slices, &slices, &mut out);
            assert_eq!((answer, out), (refused(3, 0), [9; 300]));
        }
    }
}

#[test]
fn each_call_at_lawful_limits() {
    let core = counter();
    let before = steps_before_stop(&core);
    for limit in LAWFUL {
        assert_eq!(check_limit(limit), Ok(()));
        for count in [1, 2, 255, 256, 257] {
            let slices = free(count);
            let state = before[count as usize];
            let within = count <= limit;
            let wanted = if within { Ok(state) } else { refused(3, 0) };
            assert_eq!(core.window(limit, &slices, &slices), wanted);
            assert_eq!(core.brute_window(limit, &slices, &slices), Some(wanted));
            assert_eq!(core.covers(limit, &slices, &slices, state), within);
            let seeds = core.set(limit, &slices, &slices).unwrap();
            assert_eq!(seeds.len() as u64, count.div_ceil(limit));
            let found = core.brute_set(limit, &slices, &slices).unwrap();
            assert!(found.rule_is_best(slices.len()));
            assert_eq!(found.seeds, seeds);
            let delivered = core.expand(limit, count, &[state]);
            let wanted = if within { Ok(count) } else { refused(12, 0) };
            assert_eq!(delivered.map(|slices| slices.len() as u64), wanted);
        }
    }
    // The free slices get the stop 1xxxxxxxx: cell 0 holds 1 after a step.
    let mut out = [9; 3];
    let answer = encode_cubes(9, 0x108, 1, 0, &core.masks, 3, &[0; 3], &[0; 3], &mut out);
    assert_eq!((answer, out), (Ok((1, 1, 3)), [8, 8, 0]));
    let mut out = [9; 3];
    let answer = encode_cubes(9, 0x108, 2, 0, &core.masks, 3, &[0; 3], &[0; 3], &mut out);
    assert_eq!((answer, out), (Ok((1, 1, 2)), [4, 0, 9]));
}

#[test]
fn brute_force_of_17_cells() {
    let core = Core {
        cells: 17,
        taps: 1 << 16,
        invert: 0,
        masks: vec![1],
        stop: (1, 1),
    };
    for limit in UNLAWFUL {
        assert_eq!(core.brute_window(limit, &[0], &[0]), Some(refused(3, 0)));
        assert_eq!(core.brute_set(limit, &[0], &[0]), refused(3, 0));
    }
    for limit in LAWFUL {
        assert_eq!(core.brute_window(limit, &[0], &[0]), None);
        let found = brute_set(17, 1 << 16, limit, 0, &[1], 1, 1, &[0], &[0]);
        assert_eq!(found, None);
    }
}

#[test]
fn the_limit_among_the_causes() {
    for limit in UNLAWFUL {
        // Causes 1 and 2 come before the limit, 4 and 5 after it, and so do the seeds.
        let rows: [(u64, [u64; 1], u64); 3] = [(4, [0], 1), (3, [0], 2), (3, [1], 3)];
        for (cells, masks, number) in rows {
            let mut out = [9; 4];
            let wanted = Refused { number, value: 0 };
            let window = window_seed(cells, 6, limit, 0, &masks, 0, 0, &[0], &[1]);
            assert_eq!(window, Err(wanted));
            let window = brute_window(cells, 6, limit, 0, &masks, 0, 0, &[0], &[1]);
            assert_eq!(window, Some(Err(wanted)));
            let answer = encode_set(cells, 6, limit, 0, &masks, 0, 0, &[0], &[1], &mut out);
            assert_eq!(answer, Err(wanted));
            let answer = brute_set(cells, 6, limit, 0, &masks, 0, 0, &[0], &[1]);
            assert_eq!(answer, Some(Err(wanted)));
            let answer = encode_cubes(cells, 6, limit, 0, &masks, 1, &[0], &[1], &mut out);
            assert_eq!(answer, Err(wanted));
            let answer = expand(cells, 6, limit, 0, &masks, 0, 0, 1, &[8], &mut out);
            assert_eq!(answer, Err(wanted));
            assert_eq!(out, [9; 4]);
        }
        // The limit before 6, 7, 8, 9, 14.
        let cubes = encode_cubes(3, 6, limit, 0, &[1], 1, &[1, 1], &[0, 1], &mut []);
        assert_eq!(cubes, refused(3, 0));
        let (spec, bits) = set(&["11", "xx"]);
        let stop = one("01");
        let window = window_seed(3, 6, limit, 0, &[1, 4], stop.0, stop.1, &spec, &bits);
        assert_eq!(window, refused(3, 0));
        let (r, out) = (&[1, 4], &mut []);
        let cut = encode_set(3, 6, limit, 0, r, stop.0, stop.1, &spec, &bits, out);
        assert_eq!(cut, refused(3, 0));
        let answer = expand(3, 6, limit, 0, r, stop.0, stop.1, 4, &[], &mut []);
        assert_eq!(answer, refused(3, 0));
    }
}

#[test]
fn a_window_beyond_the_limit_among_the_causes() {
    // A window of two slices under the limit 1, with causes 1, 2, 4 and 5 mended in turn.
    let rows: [(u64, [u64; 1], u64, u64, u64); 4] = [
        (4, [0], 1, 0, 1),
        (3, [0], 1, 0, 2),
        (3, [1], 1, 0, 3),
        (3, [1], 0, 1, 3),
    ];
    for (cells, masks, bit, stop, number) in rows {
        let wanted = refused(number, 0);
        let answer = window_seed(cells, 6, 1, 0, &masks, stop, 0, &[0, 0], &[bit, 0]);
        assert_eq!(answer, wanted);
        let answer = brute_window(cells, 6, 1, 0, &masks, stop, 0, &[0, 0], &[bit, 0]);
        assert_eq!(answer, Some(wanted));
    }
    // Cause 3 counts the list of specified positions.
    let answer = window_seed(3, 6, 1, 0, &[1], 1, 0, &[0], &[0, 0]);
    assert_eq!(answer, refused(4, 0));
    let answer = window_seed(3, 6, 1, 0, &[1], 1, 0, &[0, 0], &[0]);
    assert_eq!(answer, refused(3, 0));
}

#[test]
fn windows_around_every_limit() {
    let core = counter();
    let before = steps_before_stop(&core);
    for limit in 1..=LIMIT {
        for count in [limit - 1, limit, limit + 1] {
            let slices = free(count);
            let lawful = (1..=limit).contains(&count);
            let wanted = if lawful {
                Ok(before[count as usize])
            } else {
                refused(3, 0)
            };
            assert_eq!(core.window(limit, &slices, &slices), wanted);
            assert_eq!(core.brute_window(limit, &slices, &slices), Some(wanted));
            let state = before[count as usize];
            assert_eq!(core.covers(limit, &slices, &slices, state), lawful);
            // The slices of that state, all bits specified, and one bit turned.
            let run: Vec<u64> = before[1..=count as usize].iter().rev().copied().collect();
            let whole = vec![0x1ff; run.len()];
            assert_eq!(core.window(limit, &whole, &run), wanted);
            if lawful {
                let mut turned = run.clone();
                turned[(count / 2) as usize] ^= 1;
                assert_eq!(core.window(limit, &whole, &turned), refused(7, 0));
            }
        }
    }
}

#[test]
fn sets_around_every_limit() {
    let core = counter();
    let before = steps_before_stop(&core);
    for limit in 1..=LIMIT {
        for count in [
            limit - 1,
            limit,
            limit + 1,
            2 * limit - 1,
            2 * limit,
            2 * limit + 1,
        ] {
            let slices = free(count);
            if count == 0 {
                assert_eq!(core.set(limit, &slices, &slices), refused(3, 0));
                continue;
            }
            // All windows but the last are full; state 0, which never stops, covers that.
            let full = count.div_ceil(limit) as usize - 1;
            let mut wanted = vec![before[limit as usize]; full];
            wanted.push(0);
            assert_eq!(core.set(limit, &slices, &slices), Ok(wanted.clone()));
            if count <= limit + 1 {
                let found = core.brute_set(limit, &slices, &slices).unwrap();
                assert!(found.rule_is_best(slices.len()));
                assert_eq!(found.fewest, Some(wanted.len()));
                assert_eq!(found.seeds, wanted);
            }
        }
    }
}

#[test]
fn sets_that_only_a_larger_limit_cuts() {
    let core = counter();
    let before = steps_before_stop(&core);
    for limit in 2..=LIMIT {
        // The slices of one state up to its stop: their ends are windows, nothing else.
        let run: Vec<u64> = before[1..=limit as usize].iter().rev().copied().collect();
        let whole = vec![0x1ff; run.len()];
        let seed = before[limit as usize];
        assert_eq!(core.set(limit, &whole, &run), Ok(vec![seed]));
        assert_eq!(core.set(limit - 1, &whole, &run), refused(8, 0));
        // After a free slice the longest start is that slice.
        let (whole, run) = ([&[0], &whole[..]].concat(), [&[0], &run[..]].concat());
        assert_eq!(core.set(limit, &whole, &run), Ok(vec![before[1], seed]));
        assert_eq!(core.set(limit - 1, &whole, &run), refused(8, 1));
        if limit <= 24 {
            let found = core.brute_set(limit - 1, &whole, &run).unwrap();
            assert!(found.rule_is_best(whole.len()));
            assert_eq!((found.fewest, found.longest_start), (None, 1));
        }
    }
}

#[test]
fn sets_of_2048_slices() {
    let core = counter();
    let before = steps_before_stop(&core);
    let slices = free(2048);
    for limit in [1, 2, 3, 64, 255, 256] {
        let seeds = core.set(limit, &slices, &slices).unwrap();
        assert_eq!(seeds.len() as u64, 2048u64.div_ceil(limit));
        assert_eq!(seeds[0], before[limit as usize]);
        let mut short = vec![7; seeds.len() - 1];
        let answer = core.set_into(limit, &slices, &slices, &mut short);
        assert_eq!(answer, refused(9, seeds.len() as u64));
        assert!(short.iter().all(|&entry| entry == 7));
        assert_eq!(core.expand(limit, 2048, &seeds).unwrap().len(), 2048);
    }
    assert_eq!(core.set(1, &free(2049), &free(2049)), refused(3, 0));
}

#[test]
fn expanding_around_every_limit() {
    let core = counter();
    let before = steps_before_stop(&core);
    for limit in 1..=LIMIT {
        let (last, late) = (before[limit as usize], before[limit as usize + 1]);
        let run: Vec<u64> = before[1..=limit as usize].iter().rev().copied().collect();
        assert_eq!(core.expand(limit, limit, &[last]), Ok(run.clone()));
        let shifted = before[2..=limit as usize + 1].iter();
        let first: Vec<u64> = shifted.rev().copied().collect();
        assert_eq!(core.expand(limit, limit, &[late]), Ok(first));
        assert_eq!(core.expand(limit, limit + 1, &[late]), refused(12, 0));
        assert_eq!(
            core.expand(limit, 2 * limit + 1, &[last, late]),
            refused(12, 1)
        );
        let twice = core.expand(limit, 2 * limit, &[last, last]);
        assert_eq!(twice, Ok([&run[..], &run[..]].concat()));
        for (seeds, number, value) in [
            (&[last, late][..], 14, limit),
            (&[last, last, late, 0x1ff, 0x200], 12, 2),
            (&[last, 0x1ff, late], 11, 1),
            (&[0x200, late], 10, 0),
            (&[late, 0x200], 12, 0),
            (&[0, last], 12, 0),
            (&[last, 0], 14, limit),
        ] {
            assert_eq!(core.expand(limit, 1, seeds), refused(number, value));
        }
        assert_eq!(core.expand(limit, limit + 1, &[last]), refused(14, limit));
        if limit < LIMIT {
            assert_eq!(
                core.expand(limit + 1, limit + 1, &[late]).map(|_| ()),
                Ok(())
            );
        }
    }
}

/// The lowest covering state of a window, by running every state from the start. If `last`
/// the window ends its set, and what comes after it doesn't matter.
fn lowest(core: &Core, spec: &[u64], bits: &[u64], last: bool) -> Option<u64> {
    let covers = |&state: &u64| {
        let mut now = state;
        let mut slices = Vec::new();
        for _ in 0..=spec.len() {
            slices.push(slice(&core.masks, core.invert, now));
            now = step(core.cells, core.taps, now);
        }
        let shown = slices
            .iter()
            .position(|v| (v ^ core.stop.1) & core.stop.0 == 0);
        let mut window = spec.iter().zip(bits).zip(&slices);
        let stop = shown == Some(spec.len()) || (last && shown.is_none());
        stop && window.all(|((&s, &b), v)| (v ^ b) & s == 0)
    };
    (0..1 << core.cells).find(covers)
}

/// `table[start][m]`: the seed of the window of m slices from `start`, 0 < m.
fn all_seeds(core: &Core, spec: &[u64], bits: &[u64]) -> Vec<Vec<Option<u64>>> {
    let from = |start: usize| {
        let seed = |m: usize| match m {
            0 => None,
            _ => {
                let (end, last) = (start + m, start + m == spec.len());
                lowest(core, &spec[start..end], &bits[start..end], last)
            }
        };
        (0..=spec.len() - start).map(seed).collect()
    };
    (0..spec.len()).map(from).collect()
}

/// Goes through every row of covered windows of 1 to `limit` slices from `start` on, after
/// `windows` others, and notes at each end the fewest windows that get there.
fn all_cuttings(
    table: &[Vec<Option<u64>>],
    limit: usize,
    start: usize,
    windows: usize,
    fewest: &mut [usize],
) {
    fewest[start] = fewest[start].min(windows);
    for m in 1..=limit.min(table.len() - start) {
        if table[start][m].is_some() {
            all_cuttings(table, limit, start + m, windows + 1, fewest);
        }
    }
}

/// Asserts that each seed is the lowest state for the longest window within the limit, and
/// that the windows are the whole set.
fn longest_and_lowest(core: &Core, table: &[Vec<Option<u64>>], limit: u64, seeds: &[u64]) {
    let mut start = 0;
    for (&seed, length) in seeds.iter().zip(core.lengths(table.len(), seeds)) {
        let within = &table[start][..table[start].len().min(limit as usize + 1)];
        assert_eq!(within.iter().rposition(Option::is_some), Some(length));
        assert_eq!(within[length], Some(seed));
        start += length;
    }
    assert_eq!(start, table.len());
}

/// Compares all answers for a set under a limit with all states and all cuttings. The number
/// of seeds, if the set can be cut.
fn judged(
    core: &Core,
    table: &[Vec<Option<u64>>],
    limit: u64,
    spec: &[u64],
    bits: &[u64],
) -> Option<usize> {
    let mut fewest = vec![usize::MAX; spec.len() + 1];
    all_cuttings(table, limit as usize, 0, 0, &mut fewest);
    let reached = fewest.iter().rposition(|&windows| windows < usize::MAX);
    let found = core.brute_set(limit, spec, bits).unwrap();
    let answer = core.set(limit, spec, bits);
    assert!(found.rule_is_best(spec.len()));
    if reached != Some(spec.len()) {
        assert_eq!(Some(found.longest_start), reached);
        assert_eq!(found.fewest, None);
        assert_eq!(answer, refused(8, found.longest_start as u64));
        return None;
    }
    let seeds = answer.unwrap();
    assert_eq!(found.fewest, Some(fewest[spec.len()]));
    assert_eq!((seeds.len(), &seeds), (fewest[spec.len()], &found.seeds));
    assert!(seeds.len() >= spec.len().div_ceil(limit as usize));
    longest_and_lowest(core, table, limit, &seeds);
    let slices = core.expand(limit, spec.len() as u64, &seeds).unwrap();
    let mut all = spec.iter().zip(bits).zip(slices);
    assert!(all.all(|((&places, &values), v)| agrees(places, values, v)));
    Some(seeds.len())
}

#[test]
fn a_broken_promise_is_seen() {
    let core = counter();
    let cut = core.brute_set(2, &free(5), &free(5)).unwrap();
    assert_eq!((cut.fewest, cut.longest_start), (Some(3), 5));
    assert!(cut.rule_is_best(5));
    // Slice 1 is the stop, so only slice 0 can be cut.
    let not_cut = core.brute_set(2, &[0, 0x1ff], &[0, 0x1ff]).unwrap();
    assert_eq!((not_cut.fewest, not_cut.longest_start), (None, 1));
    assert!(not_cut.rule_is_best(2));
    let changes: [fn(&mut BruteSet); 6] = [
        |found| found.fewest = found.fewest.map_or(Some(1), |_| None),
        |found| found.fewest = found.fewest.map_or(Some(2), |fewest| Some(fewest - 1)),
        |found| found.longest_start -= 1,
        |found| found.longest_start += 1,
        |found| found.reached -= 1,
        |found| found.reached += 1,
    ];
    for (place, change) in changes.into_iter().enumerate() {
        for (found, slices) in [(&cut, 5), (&not_cut, 2)] {
            let mut changed = found.clone();
            change(&mut changed);
            // A set that can be cut may have a shorter start with a stop after each window.
            let shorter_start = place == 2 && slices == 5;
            assert_eq!(changed.rule_is_best(slices), shorter_start, "{changed:?}");
        }
    }
    let mut changed = cut.clone();
    changed.seeds.push(1);
    assert!(!changed.rule_is_best(5));
}

#[test]
fn small_sets_against_all_cuttings() {
    let mut random = Random(41);
    let (mut cut, mut not_cut) = ([0; 5], [0; 5]);
    for _ in 0..6000 {
        let (core, spec, bits) = small(&mut random, 6, 9);
        let table = all_seeds(&core, &spec, &bits);
        for limit in 1..=4 {
            match judged(&core, &table, limit, &spec, &bits) {
                Some(_) => cut[limit as usize] += 1,
                None => not_cut[limit as usize] += 1,
            }
        }
    }
    for limit in 1..=4 {
        assert!(
            cut[limit] > 600 && not_cut[limit] > 600,
            "{cut:?} {not_cut:?}"
        );
    }
}

#[test]
fn small_windows_against_brute_force() {
    let mut random = Random(42);
    let (mut covered, mut not_covered, mut too_long) = (0, 0, 0);
    for _ in 0..6000 {
        let (core, spec, bits) = small(&mut random, 6, 6);
        for limit in 1..=4 {
            let exact = core.window(limit, &spec, &bits);
            assert_eq!(core.brute_window(limit, &spec, &bits), Some(exact));
            let lowest = lowest(&core, &spec, &bits, false);
            if spec.len() as u64 > limit {
                assert_eq!(exact, refused(3, 0));
                assert!(lowest.is_none_or(|state| !core.covers(limit, &spec, &bits, state)));
                too_long += 1;
                continue;
            }
            assert_eq!(exact.ok(), lowest);
            match lowest {
                Some(state) => assert!(core.covers(limit, &spec, &bits, state)),
                None => assert_eq!(exact, refused(7, 0)),
            }
            covered += usize::from(lowest.is_some());
            not_covered += usize::from(lowest.is_none());
        }
    }
    assert!(covered > 2000 && not_covered > 2000 && too_long > 2000);
}

#[test]
fn cubes_under_a_limit() {
    let mut random = Random(44);
    for _ in 0..2000 {
        let (core, spec, bits) = small(&mut random, 10, 20);
        let limit = random.between(1, 6);
        let mut out = vec![9; spec.len()];
        let masks = &core.masks;
        let (cells, taps) = (core.cells, core.taps);
        let answer = encode_cubes(cells, taps, limit, 0, masks, 1, &spec, &bits, &mut out);
        let stop = match stop_slice(masks.len() as u64, &spec, &bits) {
            Ok(stop) => stop,
            Err(refused) => {
                assert_eq!(answer, Err(refused));
                continue;
            }
        };
        let core = Core { stop, ..core };
        let seeds = core.set(limit, &spec, &bits);
        let wanted = seeds.as_ref().map(|seeds| (stop.0, stop.1, seeds.len()));
        assert_eq!(answer.as_ref(), wanted.as_ref().map_err(|refused| *refused));
        let written = seeds.unwrap_or_default();
        assert_eq!(out[..written.len()], written);
        assert!(out[written.len()..].iter().all(|&entry| entry == 9));
    }
}

/// The slices that are cut under a limit, and the seeds if these are all.
fn reach(core: &Core, limit: u64, spec: &[u64], bits: &[u64]) -> (usize, Option<usize>) {
    match core.set(limit, spec, bits) {
        Ok(seeds) => (spec.len(), Some(seeds.len())),
        Err(Refused { number: 8, value }) => (value as usize, None),
        Err(other) => panic!("{other:?}"),
    }
}

#[test]
fn a_larger_limit_is_never_worse() {
    let mut random = Random(45);
    let (mut fewer, mut newly_cut, mut farther) = (0, 0, 0);
    for _ in 0..8000 {
        let (core, spec, bits) = small(&mut random, 9, 24);
        let all = spec.len() as u64;
        let mut last = reach(&core, 1, &spec, &bits);
        for limit in 2..=all + 2 {
            let next = reach(&core, limit, &spec, &bits);
            assert!(next.0 >= last.0);
            farther += usize::from(next.0 > last.0);
            match (last.1, next.1) {
                (Some(before), Some(now)) => {
                    assert!(now <= before);
                    fewer += usize::from(now < before);
                }
                (Some(_), None) => panic!("no longer cut"),
                (None, Some(_)) => newly_cut += 1,
                (None, None) => {}
            }
            last = next;
        }
        // A limit from the whole set on is no limit.
        let seeds = core.set(all, &spec, &bits);
        for limit in [all + 1, 255, 256] {
            assert_eq!(core.set(limit, &spec, &bits), seeds);
        }
    }
    let found = [fewer, newly_cut, farther];
    assert!(found.iter().all(|&sets| sets > 150), "{found:?}");
}

#[test]
fn a_larger_limit_keeps_seeds_and_slices() {
    let mut random = Random(46);
    let mut lists = 0;
    for _ in 0..1500 {
        let (core, spec, bits) = small(&mut random, 8, 8);
        let all = spec.len() as u64;
        let seed = core.window(all, &spec, &bits);
        for limit in all..all + 3 {
            assert_eq!(core.window(limit, &spec, &bits), seed);
            assert!(seed.is_err() || core.covers(limit, &spec, &bits, seed.unwrap()));
        }
        let made = random.between(1, 4);
        let Ok(seeds) = core.set(made, &spec, &bits) else {
            continue;
        };
        lists += 1;
        let slices = core.expand(made, all, &seeds).unwrap();
        let lengths = core.lengths(spec.len(), &seeds);
        for limit in 1..=made + 3 {
            let late = lengths.iter().position(|&length| length as u64 > limit);
            let wanted = match late {
                Some(place) => refused(12, place as u64),
                None => Ok(slices.clone()),
            };
            assert_eq!(core.expand(limit, all, &seeds), wanted);
        }
    }
    assert!(lists > 300, "{lists} of 1,500 sets can be cut");
}

#[test]
fn wide_registers_under_a_limit() {
    let mut random = Random(47);
    let mut at_limit = 0;
    for round in 0..60 {
        let chains = random.between(4, 24);
        let core = Core {
            cells: 64,
            taps: random.taps(64),
            invert: 0,
            masks: random.masks(64, chains),
            stop: random.stop(chains, 15),
        };
        let share = [5, 20, 40][round % 3];
        let (spec, bits) = random.slices(40, chains, share);
        let limit = random.between(1, 12);
        let Ok(seeds) = core.set(limit, &spec, &bits) else {
            continue;
        };
        let mut start = 0;
        for (&seed, length) in seeds.iter().zip(core.lengths(spec.len(), &seeds)) {
            assert!(length as u64 <= limit);
            at_limit += usize::from(length as u64 == limit);
            let window = |end: usize| core.window(limit, &spec[start..end], &bits[start..end]);
            if start + length == spec.len() {
                let (places, values) = (&spec[start..], &bits[start..]);
                assert!(core.covers_last(limit, places, values, seed));
                let single = window(spec.len());
                assert!(single.is_err() || single.unwrap() >= seed);
            } else {
                assert_eq!(window(start + length), Ok(seed));
            }
            for end in start + length + 1..=spec.len().min(start + limit as usize) {
                assert_eq!(window(end), refused(7, 0));
            }
            start += length;
        }
        assert_eq!(start, spec.len());
    }
    assert!(at_limit > 60, "{at_limit} windows of the limit's length");
}
