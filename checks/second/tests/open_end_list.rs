// Holds tests of the expanding of lists whose last seed ends with the total: examples worked
// by hand, all small lists against two other readings of the rule, and the limit.
// Follows document 02, R-5.

mod common;

use common::cores::{counter, steps_before_stop, Core};
use common::every::{all_cores, all_rows};
use common::{one, refused, set, LIMIT};
use second::*;

/// Register R of document 01 with the stop 01.
fn r() -> Core {
    Core {
        cells: 3,
        taps: 6,
        invert: 0,
        masks: vec![1, 4],
        stop: one("01"),
    }
}

#[test]
fn lists_of_r() {
    // The states 1, 2, 5, 3, 7 deliver 10, 00, 11, 10, 11; then 6 and 4 show the stop.
    // State 0 delivers 00.
    for (limit, total, seeds, texts) in [
        (256, 1, &[0][..], &["00"][..]),
        (3, 3, &[0], &["00", "00", "00"]),
        (256, 5, &[3, 0], &["10", "11", "00", "00", "00"]),
        (256, 2, &[1], &["10", "00"]),
        (2, 2, &[1], &["10", "00"]),
        (4, 4, &[1], &["10", "00", "11", "10"]),
        (5, 5, &[1], &["10", "00", "11", "10", "11"]),
        (256, 3, &[3, 3], &["10", "11", "10"]),
        (1, 2, &[7, 0], &["11", "00"]),
    ] {
        assert_eq!(r().expand(limit, total, seeds), Ok(set(texts).1));
    }
    for (limit, total, seeds, number, value) in [
        // More slices are left than the limit, and no stop comes up to slice `limit`.
        (256, 257, &[0][..], 12, 0),
        (3, 4, &[0], 12, 0),
        (2, 3, &[1], 12, 0),
        (4, 5, &[1], 12, 0),
        (1, 3, &[7, 0], 12, 1),
        // Another seed follows.
        (256, 5, &[0, 3], 12, 0),
        (4, 5, &[1, 0], 12, 0),
        // A stop before the total, in slice `limit` too.
        (256, 6, &[1], 14, 5),
        (5, 6, &[1], 14, 5),
        (5, 9, &[1], 14, 5),
        (1, 3, &[7, 7], 14, 2),
        // Nothing is left for the last seed.
        (256, 2, &[3, 3], 14, 2),
        (256, 2, &[3, 0], 14, 2),
        (256, 1, &[3, 3], 14, 2),
        (256, 2, &[3, 3, 3], 14, 4),
        (256, 2, &[3, 6], 11, 1),
        (256, 2, &[3, 8], 10, 1),
        (256, 1, &[3, 3, 4], 11, 2),
        (256, 4, &[], 14, 0),
        // The first seed that is refused counts.
        (256, 2, &[3, 0, 6], 12, 1),
        (256, 2, &[8, 0], 10, 0),
    ] {
        let answer = r().expand(limit, total, seeds);
        assert_eq!(answer, refused(number, value), "{limit} {total} {seeds:?}");
    }
}

#[test]
fn short_buffers() {
    let stop = one("01");
    for (total, seeds, wanted) in [
        (3, &[3, 0][..], refused(9, 3)),
        (2, &[0], refused(9, 2)),
        (2, &[3, 0], refused(14, 2)),
        (3, &[3], refused(14, 2)),
        (257, &[0], refused(12, 0)),
    ] {
        let mut out = [9];
        let answer = expand(
            3,
            6,
            LIMIT,
            0,
            &[1, 4],
            stop.0,
            stop.1,
            total,
            seeds,
            &mut out,
        );
        assert_eq!((answer, out), (wanted, [9]));
    }
}

#[test]
fn last_seeds_around_every_limit() {
    let core = counter();
    let before = steps_before_stop(&core);
    for limit in 1..=LIMIT {
        let at = limit as usize;
        // So many slices are left for a last seed with its stop in slice `stop`, or none.
        for (left, stop, wanted) in [
            (limit, at, Ok(limit)),
            (limit, at + 1, Ok(limit)),
            (limit, 0, Ok(limit)),
            (limit + 1, at, Err((14, limit))),
            (limit + 1, at + 1, Err((12, 0))),
            (limit + 1, at + 2, Err((12, 0))),
            (limit + 1, 0, Err((12, 0))),
        ] {
            let seed = if stop == 0 { 0 } else { before[stop] };
            let answer = core.expand(limit, left, &[seed]);
            let alone = wanted.map_err(|(number, value)| Refused { number, value });
            assert_eq!(answer.map(|slices| slices.len() as u64), alone);
            // The same after a seed of one slice.
            let answer = core.expand(limit, left + 1, &[before[1], seed]);
            let second = wanted.map(|slices| slices + 1);
            let second = second.map_err(|(number, value)| Refused {
                number,
                value: value + 1,
            });
            assert_eq!(answer.map(|slices| slices.len() as u64), second);
        }
    }
}

#[test]
fn lists_of_2048_seeds() {
    let (mut seeds, mut slices) = (vec![7; 2048], vec![3; 2048]);
    assert_eq!(r().expand(1, 2048, &seeds), Ok(slices.clone()));
    assert_eq!(r().expand(1, 2047, &seeds), refused(14, 2047));
    (seeds[2047], slices[2047]) = (0, 0);
    assert_eq!(r().expand(1, 2048, &seeds), Ok(slices));
    seeds[2046] = 0;
    assert_eq!(r().expand(1, 2048, &seeds), refused(12, 2046));
}

/// The slices that a seed delivers, so many of them.
fn delivered(core: &Core, mut state: u64, count: u64) -> Vec<u64> {
    let mut slices = Vec::new();
    for _ in 0..count {
        slices.push(slice(&core.masks, core.invert, state));
        state = step(core.cells, core.taps, state);
    }
    slices
}

/// What the request says of a list, clause by clause.
fn by_clauses(core: &Core, limit: u64, total: u64, seeds: &[u64]) -> Result<Vec<u64>, Refused> {
    let Some((&last, others)) = seeds.split_last() else {
        return refused(14, 0);
    };
    let stop = |seed: u64| core.first_stop(seed, limit as usize).map(|t| t as u64);
    let sum = |some: &[u64]| some.iter().filter_map(|&seed| stop(seed)).sum::<u64>();
    let left = total.saturating_sub(sum(others));
    for (place, &seed) in seeds.iter().enumerate() {
        let needed = place < others.len() || left > limit;
        let causes = [
            (10, seed >> core.cells != 0),
            (11, stop(seed) == Some(0)),
            (12, needed && stop(seed).is_none()),
        ];
        if let Some((number, _)) = causes.into_iter().find(|&(_, holds)| holds) {
            return refused(number, place as u64);
        }
    }
    let adds = stop(last).map_or(left, |slices| slices.min(left));
    if adds == 0 || sum(others) + adds != total {
        return refused(14, sum(others) + adds);
    }
    let runs = others.iter().map(|&seed| (seed, sum(&[seed])));
    let runs = runs.chain([(last, adds)]);
    Ok(runs
        .flat_map(|(seed, count)| delivered(core, seed, count))
        .collect())
}

/// True if the seeds cover some row of windows without specified bits that has `total` slices;
/// the last window need not close.
fn by_covering(core: &Core, limit: u64, total: u64, seeds: &[u64]) -> bool {
    let x = [0; 16];
    match seeds {
        [] => false,
        [last] => {
            let window = &x[..total as usize];
            core.covers_last(limit, window, window, *last)
        }
        [first, rest @ ..] => (1..total).any(|length| {
            let window = &x[..length as usize];
            core.covers(limit, window, window, *first)
                && by_covering(core, limit, total - length, rest)
        }),
    }
}

/// The expanding in a small buffer, which stays as it was on refusal.
fn expanded(core: &Core, limit: u64, total: u64, seeds: &[u64]) -> Result<Vec<u64>, Refused> {
    let (invert, masks, stop) = (core.invert, &core.masks, core.stop);
    let mut out = [u64::MAX; 16];
    let answer = expand(
        core.cells, core.taps, limit, invert, masks, stop.0, stop.1, total, seeds, &mut out,
    );
    let written = answer.unwrap_or(0);
    assert!(out[written..].iter().all(|&entry| entry == u64::MAX));
    answer.map(|count| out[..count].to_vec())
}

#[test]
fn all_small_lists() {
    let mut counts = [0; 15];
    for (cells, chains, inverts, most_seeds) in [
        (1, 1, &[0, 1][..], 4),
        (2, 2, &[0, 3], 3),
        (3, 1, &[0, 1], 3),
    ] {
        // All states, and a seed that is none.
        let states: Vec<u64> = (0..=1 << cells).collect();
        let lists: Vec<_> = (0..=most_seeds)
            .flat_map(|length| all_rows(&states, length))
            .collect();
        for core in all_cores(cells, chains, inverts) {
            for (limit, total) in (1..5).flat_map(|limit| (1..=9).map(move |n| (limit, n))) {
                for seeds in &lists {
                    let answer = expanded(&core, limit, total, seeds);
                    assert_eq!(answer, by_clauses(&core, limit, total, seeds));
                    assert_eq!(answer.is_ok(), by_covering(&core, limit, total, seeds));
                    counts[answer.map_or_else(|refused| refused.number as usize, |_| 0)] += 1;
                }
            }
        }
    }
    for cause in [0, 10, 11, 12, 14] {
        assert!(counts[cause] > 10_000, "{counts:?}");
    }
}
