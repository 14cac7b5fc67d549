// Holds tests of the exact search at 33 to 64 cells against an enumeration in rising order.
// Follows document 01, "Covering and cutting".

mod common;

use common::{Random, LIMIT};
use second::*;

/// An affine space as its lowest state and directions, found by plain elimination of
/// equations `(row, bit)`; None if they contradict.
fn solve(cells: u64, equations: &[(u64, u64)]) -> Option<(u64, Vec<u64>)> {
    // Each row in turn gets its lowest cell as the pivot and clears it in all others.
    let mut rows: Vec<(u64, u64, u64)> = Vec::new();
    for &(row, bit) in equations {
        let (mut row, mut bit) = (row, bit);
        for &(cell, other, value) in &rows {
            if row >> cell & 1 == 1 {
                row ^= other;
                bit ^= value;
            }
        }
        if row == 0 {
            if bit == 1 {
                return None;
            }
            continue;
        }
        let cell = u64::from(row.trailing_zeros());
        for other in &mut rows {
            if other.1 >> cell & 1 == 1 {
                other.1 ^= row;
                other.2 ^= bit;
            }
        }
        rows.push((cell, row, bit));
    }
    let low = rows.iter().map(|&(cell, _, bit)| bit << cell).sum();
    let mut directions = Vec::new();
    for free in 0..cells {
        if rows.iter().all(|&(cell, _, _)| cell != free) {
            let mut direction = 1u64 << free;
            for &(cell, row, _) in &rows {
                direction |= (row >> free & 1) << cell;
            }
            directions.push(direction);
        }
    }
    Some((low, directions))
}

/// The cells of the seed whose sum is the bit of the chain in slice t, found by running
/// each cell alone.
fn row(cells: u64, taps: u64, mask: u64, t: usize) -> u64 {
    let mut row = 0;
    for cell in 0..cells {
        let mut state = 1 << cell;
        for _ in 0..t {
            state = step(cells, taps, state);
        }
        row |= slice(&[mask], 0, state) << cell;
    }
    row
}

/// The lowest covering state among the first `tries` that agree and stop at the end.
/// None if more would have to be looked at.
fn rising(
    (cells, taps, masks, stop): (u64, u64, &[u64], (u64, u64)),
    spec: &[u64],
    bits: &[u64],
    tries: u64,
) -> Option<Option<u64>> {
    let mut equations = Vec::new();
    let slices = spec.iter().zip(bits).map(|(&s, &b)| (s, b)).chain([stop]);
    for (t, (places, values)) in slices.enumerate() {
        for (place, &mask) in masks.iter().enumerate() {
            if places >> place & 1 == 1 {
                equations.push((row(cells, taps, mask, t), values >> place & 1));
            }
        }
    }
    let Some((low, directions)) = solve(cells, &equations) else {
        return Some(None);
    };
    // From 40 directions on there are more states than tries.
    let whole = 1u64 << directions.len().min(40);
    let mut last = None;
    for number in 0..whole.min(tries) {
        let mut state = low;
        for (place, direction) in directions.iter().enumerate() {
            if number >> place & 1 == 1 {
                state ^= direction;
            }
        }
        assert!(last.is_none_or(|before| before < state));
        last = Some(state);
        let (s, b) = stop;
        if covers(cells, taps, LIMIT, 0, masks, s, b, spec, bits, state, true) {
            return Some(Some(state));
        }
    }
    (whole <= tries).then_some(None)
}

#[test]
fn windows_of_wide_registers() {
    let mut random = Random(11);
    let (mut covered, mut not_covered, mut above_lowest) = (0, 0, 0);
    for round in 0..400 {
        let cells = if round % 2 == 0 {
            64
        } else {
            random.between(33, 64)
        };
        let chains = random.between(2, 20);
        let taps = random.taps(cells);
        let masks = random.masks(cells, chains);
        let stop = random.stop(chains, [5, 15, 30][round % 3]);
        // About as many equations as cells, a few more or less.
        let share = random.between(2, 40);
        let wanted = cells.saturating_sub(random.below(24)) * 100;
        let count = (wanted / (chains * share)).clamp(1, 60);
        let (spec, bits) = random.slices(count, chains, share);
        let setting = (cells, taps, &masks[..], stop);
        let Some(slow) = rising(setting, &spec, &bits, 1 << 14) else {
            continue;
        };
        let exact = window_seed(cells, taps, LIMIT, 0, &masks, stop.0, stop.1, &spec, &bits);
        assert_eq!(exact.ok(), slow);
        match slow {
            Some(_) => covered += 1,
            None => not_covered += 1,
        }
        above_lowest += usize::from(
            slow.is_some_and(|seed| rising(setting, &spec, &bits, 1) != Some(Some(seed))),
        );
    }
    assert!(covered > 50 && not_covered > 50 && above_lowest > 10);
}

#[test]
fn sets_of_wide_registers() {
    let mut random = Random(12);
    for _ in 0..6 {
        let chains = random.between(20, 64);
        let share = random.between(5, 30);
        let taps = 1 << 63 | 1 << 62 | 1 << 60 | 1 << 59;
        let masks = random.masks(64, chains);
        let (spec, bits) = random.slices(256, chains, share);
        let mut out = vec![0; 256];
        let answer = encode_cubes(64, taps, LIMIT, 0, &masks, 4, &spec, &bits, &mut out);
        let (stop_spec, stop_bits, count) = answer.unwrap();
        assert_eq!(stop_slice(chains, &spec, &bits), Ok((stop_spec, stop_bits)));
        let mut slices = vec![0; 256];
        let seeds = &out[..count];
        let answer = expand(
            64,
            taps,
            LIMIT,
            0,
            &masks,
            stop_spec,
            stop_bits,
            256,
            seeds,
            &mut slices,
        );
        assert_eq!(answer, Ok(256));
        for (place, &v) in slices.iter().enumerate() {
            assert!(agrees(spec[place], bits[place], v));
        }
    }
}
