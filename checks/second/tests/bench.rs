// Holds the bench examples as tests of the library calls.
// Follows document 01, "Bench examples", with the six slices of two chains as document 02,
// R-1, has them, and with its R-5: the last seed goes without its stop.

mod common;

use common::cores::{free, Core};
use common::{one, refused, set, LIMIT};
use second::*;

const MASKS: [u64; 2] = [1, 4];

/// A window of register R with the stop 01.
fn window(texts: &[&str]) -> Result<u64, Refused> {
    let (spec, bits) = set(texts);
    let (stop_spec, stop_bits) = one("01");
    let exact = window_seed(3, 6, LIMIT, 0, &MASKS, stop_spec, stop_bits, &spec, &bits);
    let brute = brute_window(3, 6, LIMIT, 0, &MASKS, stop_spec, stop_bits, &spec, &bits);
    assert_eq!(Some(exact), brute);
    exact
}

fn stop_of(texts: &[&str]) -> Result<(u64, u64), Refused> {
    let (spec, bits) = set(texts);
    stop_slice(texts[0].len() as u64, &spec, &bits)
}

#[test]
fn register_r_steps() {
    let mut state = 1;
    for next in [2, 5, 3, 7, 6, 4, 1] {
        state = step(3, 6, state);
        assert_eq!(state, next);
    }
}

#[test]
fn figure_2() {
    let (spec, bits) = set(&[
        "x001x10x11",
        "10xx0010xx",
        "xx10xx01x1",
        "x1xxxx110x",
        "01x11xx110",
        "x0xxxxxxxx",
    ]);
    let trace = stop_trace(10, &spec, &bits).unwrap();
    let first = Iteration {
        zeros: vec![1, 3, 1, 1, 1, 1, 2, 1, 1, 1],
        ones: vec![1, 2, 1, 2, 1, 1, 2, 3, 2, 2],
        position: 2,
        bit: 1,
        removed: vec![0, 1, 2, 5],
    };
    let second = Iteration {
        zeros: vec![1, 0, 0, 0, 0, 0, 0, 0, 1, 1],
        ones: vec![0, 2, 0, 1, 1, 0, 1, 2, 1, 0],
        position: 8,
        bit: 0,
        removed: vec![3, 4],
    };
    assert_eq!(trace.iterations, [first, second]);
    assert!(trace.left.is_empty());
    assert_eq!(stop_slice(10, &spec, &bits), Ok(one("x1xxxxx0xx")));
}

#[test]
fn stop_steps_that_end_with_slices_in() {
    assert_eq!(stop_of(&["0", "1"]), refused(6, 0));
    assert_eq!(
        stop_of(&["1x", "1x", "1x", "10", "00", "01"]),
        Ok(one("11"))
    );
}

#[test]
fn stop_of_unspecified_slices() {
    assert_eq!(stop_of(&["xxx", "xxx"]), Ok(one("1xx")));
    // The first position is set by a count; then every count at an unset one is 0.
    assert_eq!(stop_of(&["0xx", "0xx", "1xx"]), Ok(one("11x")));
}

#[test]
fn windows_of_r() {
    assert_eq!(window(&["10", "x1"]), Ok(3));
    assert_eq!(window(&["10"]), refused(7, 0));
    assert_eq!(window(&["xx", "xx"]), Ok(3));
    assert_eq!(window(&["11", "xx"]), refused(7, 0));
}

#[test]
fn state_7_shows_the_stop_early() {
    let (stop_spec, stop_bits) = one("01");
    let mut state = 7;
    let mut shown = Vec::new();
    for _ in 0..3 {
        shown.push(shows(stop_spec, stop_bits, slice(&MASKS, 0, state)));
        state = step(3, 6, state);
    }
    assert_eq!(shown, [false, true, true]);
}

#[test]
fn set_of_r_without_a_stop_at_its_end() {
    let (spec, bits) = set(&["1x", "0x"]);
    let (stop_spec, stop_bits) = one("01");
    for space in 0..3 {
        let mut out = vec![9; space];
        let answer = encode_set(
            3, 6, LIMIT, 0, &MASKS, stop_spec, stop_bits, &spec, &bits, &mut out,
        );
        let wanted = if space == 0 { refused(9, 1) } else { Ok(1) };
        assert_eq!(answer, wanted);
        assert_eq!(out, [1, 9][..space]);
    }
    let brute = brute_set(3, 6, LIMIT, 0, &MASKS, stop_spec, stop_bits, &spec, &bits);
    let found = brute.unwrap().unwrap();
    // With a stop after each window only the first slice can be cut.
    assert_eq!(
        (found.fewest, found.longest_start, found.reached),
        (Some(1), 1, 2)
    );
}

#[test]
fn set_of_r_that_cannot_be_cut() {
    // The last slice is the stop.
    let (spec, bits) = set(&["1x", "01"]);
    let (stop_spec, stop_bits) = one("01");
    for space in 0..3 {
        let mut out = vec![9; space];
        let answer = encode_set(
            3, 6, LIMIT, 0, &MASKS, stop_spec, stop_bits, &spec, &bits, &mut out,
        );
        assert_eq!(answer, refused(8, 1));
        assert_eq!(out, vec![9; space]);
    }
    let brute = brute_set(3, 6, LIMIT, 0, &MASKS, stop_spec, stop_bits, &spec, &bits);
    let found = brute.unwrap().unwrap();
    assert_eq!(
        (found.fewest, found.longest_start, found.reached),
        (None, 1, 1)
    );
}

#[test]
fn seeds_of_r_refused() {
    let (stop_spec, stop_bits) = one("01");
    let mut out = [9; 4];
    for (seeds, number, value) in [
        (&[6][..], 11, 0),
        (&[0, 3], 12, 0),
        (&[3, 6], 11, 1),
        (&[3, 3, 0, 6, 8], 12, 2),
        (&[3, 8, 0], 10, 1),
        (&[], 14, 0),
        (&[3], 14, 2),
        (&[3, 3, 3], 14, 4),
    ] {
        let answer = expand(
            3, 6, LIMIT, 0, &MASKS, stop_spec, stop_bits, 4, seeds, &mut out,
        );
        assert_eq!(answer, refused(number, value), "{seeds:?}");
        assert_eq!(out, [9; 4]);
    }
    // Document 01's seed 0, which is the last.
    let answer = expand(
        3,
        6,
        LIMIT,
        0,
        &MASKS,
        stop_spec,
        stop_bits,
        4,
        &[0],
        &mut out,
    );
    assert_eq!((answer, out), (Ok(4), [0; 4]));
}

#[test]
fn the_sheet_as_calls() {
    let (spec, bits) = set(&["10", "x1", "1x", "1x"]);
    let (stop_spec, stop_bits) = one("0x");
    let mut out = [9; 4];
    let answer = encode_cubes(3, 6, LIMIT, 0, &MASKS, 2, &spec, &bits, &mut out);
    assert_eq!(answer, Ok((stop_spec, stop_bits, 2)));
    assert_eq!(out, [3, 3, 9, 9]);
    let mut slices = [9; 5];
    let answer = expand(
        3,
        6,
        LIMIT,
        0,
        &MASKS,
        stop_spec,
        stop_bits,
        4,
        &out[..2],
        &mut slices,
    );
    assert_eq!(answer, Ok(4));
    assert_eq!(slices, [1, 3, 1, 3, 9]);
}

#[test]
fn a_buffer_one_entry_short() {
    let (spec, bits) = set(&["10", "x1", "1x", "1x"]);
    let (stop_spec, stop_bits) = one("0x");
    let mut out = [9];
    let answer = encode_cubes(3, 6, LIMIT, 0, &MASKS, 2, &spec, &bits, &mut out);
    assert_eq!(answer, refused(9, 2));
    let answer = encode_set(
        3, 6, LIMIT, 0, &MASKS, stop_spec, stop_bits, &spec, &bits, &mut out,
    );
    assert_eq!(answer, refused(9, 2));
    assert_eq!(out, [9]);
    let mut slices = [9; 3];
    let answer = expand(
        3,
        6,
        LIMIT,
        0,
        &MASKS,
        stop_spec,
        stop_bits,
        4,
        &[3, 3],
        &mut slices,
    );
    assert_eq!(answer, refused(9, 4));
    assert_eq!(slices, [9; 3]);
}

/// 12 cells of period 4,095, one chain for each cell, and a stop that one state shows.
fn core_12() -> Core {
    Core {
        cells: 12,
        taps: 0b1110_0000_1000,
        invert: 0,
        masks: (0..12).map(|cell| 1 << cell).collect(),
        stop: (0xfff, 0xfff),
    }
}

/// The state whose first stop is in slice `t`.
fn stopping_at(core: &Core, t: usize) -> u64 {
    let mut states = (0..4096).filter(|&state| core.first_stop(state, t) == Some(t));
    let state = states.next().unwrap();
    assert_eq!(states.next(), None);
    state
}

#[test]
fn windows_of_256_and_257_slices() {
    let core = core_12();
    let before = stopping_at(&core, 256);
    let exact = |count| core.window(LIMIT, &free(count), &free(count));
    assert_eq!(exact(0), refused(3, 0));
    assert_eq!(exact(256), Ok(before));
    assert_eq!(exact(257), refused(3, 0));
    let seeds = core.set(LIMIT, &free(257), &free(257)).unwrap();
    assert_eq!(seeds, [before, 0]);
    // Slice 256 may show the stop in expanding, slice 257 is too late where it is needed.
    let slices = core.expand(LIMIT, 256, &[before]).unwrap();
    assert_eq!(slices.len(), 256);
    let earlier = stopping_at(&core, 257);
    let slices = core.expand(LIMIT, 256, &[earlier]).unwrap();
    assert_eq!(slices.len(), 256);
    assert_eq!(core.expand(LIMIT, 257, &[earlier]), refused(12, 0));
    assert_eq!(core.expand(LIMIT, 256, &[earlier, 0]), refused(12, 0));
}

#[test]
fn sets_of_2048_and_2049_slices() {
    let core = core_12();
    let encode = |count| core.set(LIMIT, &free(count), &free(count)).map(|s| s.len());
    assert_eq!(encode(2048), Ok(8));
    assert_eq!(encode(2049), refused(3, 0));
    assert_eq!(encode(0), refused(3, 0));
    assert_eq!(stop_slice(12, &free(2049), &free(2049)), refused(3, 0));
    assert_eq!(stop_slice(12, &free(2048), &free(2048)), Ok((1, 1)));
    let seeds = vec![0; 2049];
    assert_eq!(core.expand(LIMIT, 1, &seeds), refused(3, 0));
    assert_eq!(core.expand(LIMIT, 2049, &seeds[..1]), refused(3, 0));
    assert_eq!(core.expand(LIMIT, 1, &seeds[..2048]), refused(12, 0));
}

#[test]
fn taps_in_cell_63_only() {
    let last = 1u64 << 63;
    assert_eq!(check_register(64, last), Ok(()));
    assert_eq!(step(64, last, last), 1);
    assert_eq!(step(64, last, u64::MAX), u64::MAX);
    // Slice t is cell 63-t of the seed for t below 64, then the same again.
    for m in 1..=256u64 {
        let free = vec![0; m as usize];
        let answer = window_seed(64, last, LIMIT, 0, &[last], 1, 1, &free, &free);
        let wanted = if m < 64 { Ok(last >> m) } else { refused(7, 0) };
        assert_eq!(answer, wanted, "{m}");
    }
    // The stop comes after 63 slices at the latest; state 0 needs none at the end.
    for (count, seeds) in [(200, &[0][..]), (300, &[1, 0]), (400, &[1, 1, 1, 0])] {
        let mut out = [9; 5];
        let free = vec![0; count];
        let answer = encode_set(64, last, LIMIT, 0, &[last], 1, 1, &free, &free, &mut out);
        assert_eq!(answer, Ok(seeds.len()));
        assert_eq!(out[..seeds.len()], *seeds);
        assert!(out[seeds.len()..].iter().all(|&entry| entry == 9));
    }
}

#[test]
fn equal_masks_are_lawful() {
    let masks = [4, 4];
    assert_eq!(check_chains(3, &masks), Ok(()));
    let (spec, bits) = set(&["0x", "x0"]);
    let (same_spec, same_bits) = one("11");
    assert_eq!(
        window_seed(3, 6, LIMIT, 0, &masks, same_spec, same_bits, &spec, &bits),
        Ok(1)
    );
    let (other_spec, other_bits) = one("01");
    let answer = window_seed(3, 6, LIMIT, 0, &masks, other_spec, other_bits, &spec, &bits);
    assert_eq!(answer, refused(7, 0));
    let (spec, bits) = set(&["0x", "x1"]);
    let answer = window_seed(3, 6, LIMIT, 0, &masks, same_spec, same_bits, &spec, &bits);
    assert_eq!(answer, refused(7, 0));
}
