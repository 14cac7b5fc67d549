// Holds tests of the inverted chains in each call: examples worked by hand, refusals, and masks
// beyond the chains. invert_masks.rs has the brute force, invert_text.rs the line of the text.
// Follows document 02, R-4, and R-5 for the last seed.

mod common;

use common::cores::{small, Core};
use common::{one, refused, set, Random, LIMIT};
use second::*;

/// Register R of document 01 with the stop slice and these chains inverted.
fn r(invert: u64, stop: &str) -> Core {
    Core {
        cells: 3,
        taps: 6,
        invert,
        masks: vec![1, 4],
        stop: one(stop),
    }
}

/// A window of register R with the stop 01, by the search and by the brute force.
fn window(invert: u64, texts: &[&str]) -> Result<u64, Refused> {
    let (core, (spec, bits)) = (r(invert, "01"), set(texts));
    let exact = core.window(LIMIT, &spec, &bits);
    assert_eq!(core.brute_window(LIMIT, &spec, &bits), Some(exact));
    exact
}

#[test]
fn slices_of_r() {
    // The states 1, 2, 5, 3, 7, 6, 4 in the order of the steps, then 0.
    for (invert, texts) in [
        (0, ["10", "00", "11", "10", "11", "01", "01", "00"]),
        (1, ["00", "10", "01", "00", "01", "11", "11", "10"]),
        (2, ["11", "01", "10", "11", "10", "00", "00", "01"]),
        (3, ["01", "11", "00", "01", "00", "10", "10", "11"]),
    ] {
        for (state, text) in [1, 2, 5, 3, 7, 6, 4, 0].into_iter().zip(texts) {
            assert_eq!(
                slice(&[1, 4], invert, state),
                one(text).1,
                "{invert} {state}"
            );
        }
    }
}

#[test]
fn slices_have_the_chains_bits_only() {
    assert_eq!(slice(&[], u64::MAX, 7), 0);
    assert_eq!(slice(&[1, 4], u64::MAX, 0), 3);
    assert_eq!(slice(&[1, 4], 4, 1), 1);
    assert_eq!(slice(&[1; 64], u64::MAX, 0), u64::MAX);
    assert_eq!(slice(&[1; 64], u64::MAX, 1), 0);
    assert_eq!(slice(&[1; 65], 1 << 63, 0), 1 << 63);
    // Equal masks, one of them inverted.
    assert_eq!(slice(&[1, 1], 2, 1), 1);
    assert_eq!(slice(&[1, 1], 2, 0), 2);
}

#[test]
fn windows_of_r_inverted() {
    // Stops: 5 and 7 for mask 1, 2 and 0 for mask 2, 1 and 3 for mask 3.
    for (texts, seeds) in [
        (&["10"][..], [None, Some(2), None, Some(4)]),
        (&["10", "x1"], [Some(3), None, None, None]),
        (&["xx", "xx"], [Some(3), Some(1), Some(4), Some(2)]),
        (&["11", "xx"], [None, None, None, Some(2)]),
        (&["00", "10"], [None, Some(1), None, None]),
        (&["xx", "xx", "xx"], [Some(5), Some(4), Some(6), Some(7)]),
        (&["11", "11", "00", "10"], [None, Some(6), None, None]),
        (
            &["1x", "x1", "10", "00", "0x", "11"],
            [None, None, Some(5), None],
        ),
    ] {
        for (invert, seed) in (0..).zip(seeds) {
            let wanted = seed.map_or(refused(7, 0), Ok);
            assert_eq!(window(invert, texts), wanted, "{invert} {texts:?}");
        }
    }
}

#[test]
fn sets_of_r_inverted() {
    // Document 01's set 1x, 0x, in one window without a stop after it; then a set whose last
    // slice is the stop, so that only the first can be cut.
    for (texts, wanted) in [
        (["1x", "0x"], [Ok(1), Ok(4), Ok(7), Ok(2)]),
        (["1x", "01"], [refused(8, 1); 4]),
    ] {
        let (spec, bits) = set(&texts);
        for (invert, wanted) in (0..).zip(wanted) {
            let core = r(invert, "01");
            assert_eq!(core.set(LIMIT, &spec, &bits), wanted.map(|seed| vec![seed]));
            let found = core.brute_set(LIMIT, &spec, &bits).unwrap();
            assert!(found.rule_is_best(2));
            assert_eq!(found.fewest, wanted.ok().map(|_| 1));
        }
    }
}

#[test]
fn the_sheet_of_r_inverted() {
    // The stop slice comes from the test slices; the seeds from the slices as they come out.
    let (spec, bits) = set(&["10", "x1", "1x", "1x"]);
    for (invert, seeds, texts) in [
        (0, &[3, 3][..], ["10", "11", "10", "11"]),
        (1, &[2, 6, 0], ["10", "11", "11", "10"]),
        (2, &[5, 1], ["10", "11", "10", "11"]),
        (3, &[4, 0], ["10", "11", "11", "11"]),
    ] {
        let (core, count) = (r(invert, "0x"), seeds.len());
        let mut out = [9; 4];
        let answer = encode_cubes(3, 6, LIMIT, invert, &[1, 4], 2, &spec, &bits, &mut out);
        assert_eq!(answer, Ok((1, 0, count)));
        assert_eq!(out[..count], *seeds);
        assert!(out[count..].iter().all(|&entry| entry == 9));
        assert_eq!(core.set(LIMIT, &spec, &bits), Ok(seeds.to_vec()));
        assert_eq!(core.expand(LIMIT, 4, seeds), Ok(set(&texts).1));
        // A buffer one entry short.
        let mut short = vec![9; count - 1];
        let answer = core.set_into(LIMIT, &spec, &bits, &mut short);
        assert_eq!(answer, refused(9, count as u64));
        assert_eq!(short, vec![9; count - 1]);
    }
}

#[test]
fn seeds_of_r_inverted() {
    // With the stop 01: the slices that the seeds 1 to 7 and 0 deliver, or their cause.
    for (invert, seed, texts) in [
        (1, 6, &["11", "11", "00", "10"][..]),
        (1, 4, &["11", "00", "10"]),
        (2, 5, &["10", "11", "10", "00", "00", "11"]),
        (2, 6, &["00", "00", "11"]),
        (3, 6, &["10", "10"]),
        (3, 7, &["00", "10", "10"]),
    ] {
        let core = r(invert, "01");
        let total = texts.len() as u64;
        assert_eq!(core.expand(LIMIT, total, &[seed]), Ok(set(texts).1));
        assert_eq!(core.expand(LIMIT, total + 1, &[seed]), refused(14, total));
        assert_eq!(core.expand(total, total, &[seed]), Ok(set(texts).1));
        if total > 1 {
            assert_eq!(core.expand(total - 1, total, &[seed]), refused(12, 0));
        }
    }
    for (invert, seeds, number, value) in [
        (1, &[5][..], 11, 0),
        (1, &[2, 7], 11, 1),
        (1, &[2, 0, 7], 12, 1),
        (2, &[2], 11, 0),
        (2, &[4, 0], 11, 1),
        (2, &[4, 8, 0], 10, 1),
        (3, &[1], 11, 0),
        (3, &[6, 4, 3], 11, 2),
        (3, &[0, 8], 12, 0),
    ] {
        assert_eq!(
            r(invert, "01").expand(LIMIT, 1, seeds),
            refused(number, value)
        );
    }
}

#[test]
fn the_state_0_closes_nothing() {
    // Its slices are all the mask: slice 0 shows the stop, or none does. Only as a last seed
    // can it deliver slices.
    let mut random = Random(50);
    for _ in 0..300 {
        let (mut core, spec, bits) = small(&mut random, 6, 4);
        for invert in 0..1 << core.masks.len() {
            core.invert = invert;
            assert_eq!(slice(&core.masks, invert, 0), invert);
            assert!(!core.covers(LIMIT, &spec, &bits, 0));
            let shown = shows(core.stop.0, core.stop.1, invert);
            let number = if shown { 11 } else { 12 };
            assert_eq!(core.expand(LIMIT, 1, &[0, 0]), refused(number, 0));
            assert_eq!(core.expand(LIMIT, 257, &[0]), refused(number, 0));
            let wanted = if shown {
                refused(11, 0)
            } else {
                Ok(vec![invert])
            };
            assert_eq!(core.expand(LIMIT, 1, &[0]), wanted);
        }
    }
}

#[test]
fn equal_masks_with_one_inverted() {
    // The two chains always differ.
    let core = |invert, stop| Core {
        masks: vec![4, 4],
        ..r(invert, stop)
    };
    let (spec, bits) = set(&["0x", "x1"]);
    for stop in ["11", "00"] {
        for invert in [1, 2] {
            assert_eq!(
                core(invert, stop).window(LIMIT, &spec, &bits),
                refused(7, 0)
            );
            assert_eq!(core(invert, stop).expand(LIMIT, 257, &[1]), refused(12, 0));
            assert_eq!(core(invert, stop).expand(LIMIT, 1, &[1]), Ok(vec![invert]));
        }
    }
    // Cell 2 holds 0, 0, 1 from state 1 on: 01, 01, then 10 if chain 2 is inverted.
    assert_eq!(core(2, "10").window(LIMIT, &spec, &bits), Ok(1));
    assert_eq!(core(2, "10").expand(LIMIT, 2, &[1]), Ok(vec![2, 2]));
    // Cell 2 holds 1, 1, 0 from state 6 on: 01, 01, then 10 if chain 1 is inverted.
    assert_eq!(core(1, "10").window(LIMIT, &spec, &bits), Ok(6));
    assert_eq!(core(1, "10").expand(LIMIT, 2, &[6]), Ok(vec![2, 2]));
}

#[test]
fn the_range_of_the_mask() {
    for chains in 1..=64 {
        let all = u64::MAX >> (64 - chains);
        assert_eq!(check_invert(chains, 0), Ok(()));
        assert_eq!(check_invert(chains, all), Ok(()));
        assert_eq!(check_invert(chains, 1 << (chains - 1)), Ok(()));
        for beyond in chains..64 {
            assert_eq!(check_invert(chains, 1 << beyond), refused(2, 0));
            assert_eq!(check_invert(chains, all | 1 << beyond), refused(2, 0));
        }
    }
    assert_eq!(check_invert(63, u64::MAX), refused(2, 0));
    // The number of chains is tested by itself.
    assert_eq!(check_invert(0, 0), Ok(()));
    assert_eq!(check_invert(0, 1), refused(2, 0));
    assert_eq!(check_invert(65, u64::MAX), Ok(()));
}

/// Asserts that every call refuses by `number`, and leaves its buffer as it was.
fn all_refuse(
    cells: u64,
    limit: u64,
    invert: u64,
    masks: &[u64],
    bit: u64,
    stop: u64,
    number: u64,
) {
    let (spec, bits) = ([0], [bit]);
    let wanted = Refused { number, value: 0 };
    let mut out = [9; 4];
    let window = window_seed(cells, 6, limit, invert, masks, stop, 0, &spec, &bits);
    assert_eq!(window, Err(wanted));
    let window = brute_window(cells, 6, limit, invert, masks, stop, 0, &spec, &bits);
    assert_eq!(window, Some(Err(wanted)));
    let found = brute_set(cells, 6, limit, invert, masks, stop, 0, &spec, &bits);
    assert_eq!(found, Some(Err(wanted)));
    let answer = encode_set(
        cells, 6, limit, invert, masks, stop, 0, &spec, &bits, &mut out,
    );
    assert_eq!(answer, Err(wanted));
    if number < 5 {
        let answer = encode_cubes(cells, 6, limit, invert, masks, 1, &spec, &bits, &mut out);
        assert_eq!(answer, Err(wanted));
    }
    if number != 4 {
        let answer = expand(cells, 6, limit, invert, masks, stop, 0, 1, &[8], &mut out);
        assert_eq!(answer, Err(wanted));
    }
    assert_eq!(out, [9; 4]);
}

#[test]
fn the_mask_among_the_causes() {
    // Each row mends one more cause: 1, the mask of a chain, the inversion, 3, 4, 5.
    for beyond in [2, 3, 8, 1 << 63, u64::MAX] {
        all_refuse(4, 0, beyond, &[0], 1, 0, 1);
        all_refuse(3, 0, beyond, &[0], 1, 0, 2);
        all_refuse(3, 0, beyond, &[1], 1, 0, 2);
        all_refuse(3, LIMIT, beyond, &[1], 0, 1, 2);
    }
    for within in [0, 1] {
        all_refuse(3, 0, within, &[0], 1, 0, 2);
        all_refuse(3, 0, within, &[1], 1, 0, 3);
        all_refuse(3, LIMIT, within, &[1], 1, 0, 4);
        all_refuse(3, LIMIT, within, &[1], 0, 0, 5);
    }
    // Before cause 3 of the slices, the depth, the total and the seeds, and before 6 to 14.
    let none: [u64; 0] = [];
    let cubes = |depth, spec: &[u64], bits: &[u64]| {
        encode_cubes(3, 6, LIMIT, 2, &[1], depth, spec, bits, &mut [])
    };
    assert_eq!(cubes(0, &[0], &[0]), refused(2, 0));
    assert_eq!(cubes(1, &none, &none), refused(2, 0));
    assert_eq!(cubes(1, &[1, 1], &[0, 1]), refused(2, 0));
    let core = r(4, "01");
    let (spec, bits) = set(&["11", "xx"]);
    assert_eq!(core.window(LIMIT, &spec, &bits), refused(2, 0));
    assert_eq!(core.window(LIMIT, &none, &none), refused(2, 0));
    assert_eq!(core.set(LIMIT, &spec, &bits), refused(2, 0));
    assert_eq!(core.set(LIMIT, &none, &none), refused(2, 0));
    assert_eq!(core.expand(LIMIT, 0, &[3]), refused(2, 0));
    assert_eq!(core.expand(LIMIT, 1, &[0; 2049]), refused(2, 0));
}

#[test]
fn brute_force_of_17_cells() {
    for (invert, wanted) in [(0, None), (1, None), (2, Some(refused(2, 0)))] {
        let answer = brute_window(17, 1 << 16, LIMIT, invert, &[1], 1, 1, &[0], &[0]);
        assert_eq!(answer, wanted);
        let answer = brute_set(17, 1 << 16, LIMIT, invert, &[1], 1, 1, &[0], &[0]);
        assert_eq!(answer.map(|found| found.map(|_| 0)), wanted);
    }
}

#[test]
fn covering_ignores_bits_beyond_the_chains() {
    let mut random = Random(51);
    let mut covered = 0;
    for _ in 0..400 {
        let (mut core, spec, bits) = small(&mut random, 5, 2);
        let chains = core.masks.len() as u64;
        let within = random.below(1 << chains);
        let beyond = random.word() << chains;
        for state in 0..1 << core.cells {
            core.invert = within;
            let wanted = core.covers(LIMIT, &spec, &bits, state);
            core.invert = within | beyond;
            assert_eq!(core.covers(LIMIT, &spec, &bits, state), wanted);
            covered += usize::from(wanted);
        }
    }
    assert!(covered > 300, "{covered}");
}
