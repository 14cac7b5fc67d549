// Holds tests of the causes 1 to 5, of their order, and that no input makes a call panic.
// Follows document 01, "Refusal sheet".

mod common;

use common::{refused, Random, LIMIT};
use second::*;

#[test]
fn causes_1_and_2() {
    assert_eq!(check_register(0, 0), refused(1, 0));
    assert_eq!(check_register(65, 1), refused(1, 0));
    assert_eq!(check_register(u64::MAX, u64::MAX), refused(1, 0));
    assert_eq!(check_register(64, u64::MAX), Ok(()));
    assert_eq!(check_register(64, u64::MAX >> 1), refused(1, 0));
    assert_eq!(check_register(3, 4), Ok(()));
    assert_eq!(check_register(3, 3), refused(1, 0));
    assert_eq!(check_register(3, 12), refused(1, 0));
    assert_eq!(check_chains(3, &[]), refused(2, 0));
    assert_eq!(check_chains(3, &[1; 64]), Ok(()));
    assert_eq!(check_chains(3, &[1; 65]), refused(2, 0));
    assert_eq!(check_chains(3, &[1, 0]), refused(2, 0));
    assert_eq!(check_chains(3, &[1, 8]), refused(2, 0));
    assert_eq!(check_chains(64, &[u64::MAX]), Ok(()));
}

#[test]
fn cause_3_of_a_limit() {
    for limit in 0..600 {
        let wanted = if (1..=256).contains(&limit) {
            Ok(())
        } else {
            refused(3, 0)
        };
        assert_eq!(check_limit(limit), wanted);
    }
    assert_eq!(check_limit(u64::MAX), refused(3, 0));
    assert_eq!(check_limit(1 << 32 | 1), refused(3, 0));
}

#[test]
fn causes_4_and_5() {
    assert_eq!(check_slices(2, &[3, 0], &[2, 0]), Ok(()));
    assert_eq!(check_slices(2, &[3], &[]), refused(4, 0));
    assert_eq!(check_slices(2, &[2], &[1]), refused(4, 0));
    assert_eq!(check_slices(2, &[4], &[0]), refused(4, 0));
    assert_eq!(check_slices(2, &[4], &[4]), refused(4, 0));
    assert_eq!(check_slices(64, &[u64::MAX], &[u64::MAX]), Ok(()));
    assert_eq!(check_stop(2, 0, 0), refused(5, 0));
    assert_eq!(check_stop(2, 1, 2), refused(5, 0));
    assert_eq!(check_stop(2, 4, 0), refused(5, 0));
    assert_eq!(check_stop(2, 1, 1), Ok(()));
}

#[test]
fn causes_in_rising_order() {
    let mut out = [9; 4];
    // Each row mends one more cause.
    let rows: [(u64, [u64; 1], usize, u64, u64, u64); 6] = [
        (4, [0], 0, 1, 0, 1),
        (3, [0], 0, 1, 0, 2),
        (3, [1], 0, 1, 0, 3),
        (3, [1], 1, 1, 0, 4),
        (3, [1], 1, 0, 0, 5),
        (3, [1], 1, 0, 1, 0),
    ];
    for (cells, masks, count, bit, stop, number) in rows {
        let (spec, bits) = (vec![0; count], vec![bit; count]);
        let window = window_seed(cells, 6, LIMIT, 0, &masks, stop, 0, &spec, &bits);
        let set = encode_set(cells, 6, LIMIT, 0, &masks, stop, 0, &spec, &bits, &mut out);
        if number == 0 {
            assert_eq!((window, set), (Ok(1), Ok(1)));
        } else {
            assert_eq!((window, set), (refused(number, 0), refused(number, 0)));
            assert_eq!(out, [9; 4]);
        }
    }
}

#[test]
fn causes_of_cubes_stops_and_lists_in_rising_order() {
    let cubes = |cells, masks: &[u64], depth, spec: &[u64], bits: &[u64]| {
        encode_cubes(cells, 6, LIMIT, 0, masks, depth, spec, bits, &mut [9; 4])
            .map_err(|r| r.number)
    };
    assert_eq!(cubes(4, &[0], 0, &[0], &[1]), Err(1));
    assert_eq!(cubes(3, &[0], 0, &[0], &[1]), Err(2));
    assert_eq!(cubes(3, &[1], 0, &[0], &[1]), Err(3));
    assert_eq!(cubes(3, &[1], 257, &[0], &[1]), Err(3));
    assert_eq!(cubes(3, &[1], 2, &[0], &[1]), Err(3));
    assert_eq!(cubes(3, &[1], 1, &[], &[1]), Err(3));
    assert_eq!(cubes(3, &[1], 1, &[0], &[1]), Err(4));
    assert_eq!(cubes(3, &[1], 1, &[0], &[]), Err(4));
    assert_eq!(cubes(3, &[1], 1, &[1, 1], &[0, 1]), Err(6));
    assert_eq!(stop_slice(0, &[], &[1]), refused(2, 0));
    assert_eq!(stop_slice(65, &[], &[1]), refused(2, 0));
    assert_eq!(stop_slice(1, &[], &[1]), refused(3, 0));
    assert_eq!(stop_slice(1, &[1, 1], &[1]), refused(4, 0));
    let list = |taps, masks: &[u64], total| {
        expand(3, taps, LIMIT, 0, masks, 0, 0, total, &[8], &mut []).map_err(|r| r.number)
    };
    assert_eq!(list(2, &[0], 0), Err(1));
    assert_eq!(list(6, &[0], 0), Err(2));
    assert_eq!(list(6, &[1], 0), Err(3));
    assert_eq!(list(6, &[1], 1), Err(5));
}

/// A number that is often at a limit.
fn any_number(random: &mut Random) -> u64 {
    match random.below(6) {
        0 => random.below(4),
        1 => 62 + random.below(5),
        2 => u64::MAX - random.below(3),
        3 => 1 << random.below(64),
        4 => random.below(300),
        _ => random.word(),
    }
}

/// A window limit that is mostly in its range.
fn any_limit(random: &mut Random) -> u64 {
    if random.percent(70) {
        random.between(1, LIMIT)
    } else {
        any_number(random)
    }
}

/// A mask of inverted chains that mostly names chains only.
fn any_invert(random: &mut Random, masks: &[u64]) -> u64 {
    if random.percent(70) {
        random.below(1 << masks.len())
    } else {
        any_number(random)
    }
}

fn any_list(random: &mut Random) -> Vec<u64> {
    let length = random.below(5);
    (0..length).map(|_| any_number(random)).collect()
}

#[test]
fn no_input_panics() {
    let mut random = Random(5);
    for _ in 0..100_000 {
        let r = &mut random;
        let (a, b, c, d) = (any_number(r), any_number(r), any_number(r), any_number(r));
        let (masks, spec, bits) = (any_list(r), any_list(r), any_list(r));
        let limit = any_limit(r);
        let invert = any_invert(r, &masks);
        let mut out = any_list(r);
        let before = out.clone();
        let _ = (
            step(a, b, c),
            slice(&masks, b, a),
            agrees(a, b, c),
            shows(a, b, c),
        );
        let _ = (check_register(a, b), check_chains(a, &masks));
        let _ = (check_limit(a), check_limit(limit), check_invert(a, b));
        let _ = (check_slices(a, &spec, &bits), check_stop(a, b, c));
        let _ = (stop_slice(a, &spec, &bits), stop_trace(a, &spec, &bits));
        let _ = spare_pattern(a, &spec, &bits);
        let _ = window_seed(a, b, limit, invert, &masks, c, d, &spec, &bits);
        let _ = covers(
            a,
            b,
            limit,
            invert,
            &masks,
            c,
            d,
            &spec,
            &bits,
            d,
            a % 2 == 0,
        );
        let mut unchanged =
            encode_set(a, b, limit, invert, &masks, c, d, &spec, &bits, &mut out).is_err();
        unchanged &= encode_cubes(a, b, limit, invert, &masks, c, &spec, &bits, &mut out).is_err();
        unchanged &= expand(a, b, limit, invert, &masks, c, d, c, &spec, &mut out).is_err();
        assert!(!unchanged || out == before);
    }
}
