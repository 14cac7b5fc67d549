// The last seed of a list (document 02, R-5): the window that ends a set need not close with its stop, and in expanding the last seed ends when all slices are delivered.
// The states 1, 2, 5, 3, 7 of document 01's register R deliver 10, 00, 11, 10, 11; then 6 and 4 show the stop. State 0 delivers 00 and has no stop.

use seeds::{
    encode_set, encode_sheet, expand, expand_list, window_seed, Machine, Refusal, Settings,
    TestSlice, TestSlices,
};

/// Document 01's register R, with the masks of its chains.
const R: Settings = Settings::new(3, 6);
const MASKS: [u64; 2] = [1, 4];

/// Document 01's stop slice 01.
const STOP: TestSlice = TestSlice {
    specified: 3,
    bits: 2,
};

const UNTOUCHED: u64 = 0xdead_beef;

fn refusal<T>(number: usize, value: usize) -> Result<T, Refusal> {
    Err(Refusal::new(number, value))
}

/// The seeds of a set of up to four slices.
fn seeds_of(specified: &[u64], bits: &[u64]) -> Result<Vec<u64>, Refusal> {
    let mut seeds = [UNTOUCHED; 4];
    let set = TestSlices { specified, bits };
    let count = encode_set(Machine::new(R, &MASKS), STOP, set, &mut seeds)?;
    Ok(seeds[..count].to_vec())
}

/// The seed of the same slices as a single window.
fn single(specified: &[u64], bits: &[u64]) -> Result<u64, Refusal> {
    let window = TestSlices { specified, bits };
    window_seed(Machine::new(R, &MASKS), STOP, window)
}

/// The slices of a list under a limit. No entry behind them changes, and no entry at all on refusal.
fn slices_of(limit: usize, slices: usize, seeds: &[u64]) -> Result<Vec<u64>, Refusal> {
    let mut out = [UNTOUCHED; 9];
    let machine = Machine::new(R.with_limit(limit), &MASKS);
    let total = expand(machine, STOP, slices, seeds, &mut out);
    let written = total.unwrap_or(0);
    assert!(out[written..].iter().all(|&entry| entry == UNTOUCHED));
    total.map(|count| out[..count].to_vec())
}

#[test]
fn a_last_seed_0() {
    assert_eq!(seeds_of(&[3], &[0]), Ok(vec![0]));
    assert_eq!(seeds_of(&[0; 4], &[0; 4]), Ok(vec![0]));
    assert_eq!(seeds_of(&[3, 2, 3, 3], &[1, 2, 0, 0]), Ok(vec![3, 0]));
    assert_eq!(slices_of(256, 4, &[3, 0]), Ok(vec![1, 3, 0, 0]));
    assert_eq!(slices_of(256, 4, &[0, 3]), refusal(12, 0));
}

/// The slices 00; 1x, 0x; and 00, 10, of which 00 is a set, and no start: no window 00 closes.
#[test]
fn a_set_and_a_single_window() {
    assert_eq!(single(&[3], &[0]), refusal(7, 0));
    assert_eq!(seeds_of(&[1, 1], &[1, 0]), Ok(vec![1]));
    assert_eq!(single(&[1, 1], &[1, 0]), refusal(7, 0));
    assert_eq!(seeds_of(&[3, 3], &[0, 1]), refusal(8, 0));
}

#[test]
fn it_ends_with_the_slices() {
    assert_eq!(slices_of(256, 3, &[3, 3]), Ok(vec![1, 3, 1]));
    assert_eq!(slices_of(256, 2, &[1]), Ok(vec![1, 0]));
    assert_eq!(slices_of(2, 2, &[1]), Ok(vec![1, 0]));
    assert_eq!(slices_of(256, 5, &[1]), Ok(vec![1, 0, 3, 1, 3]));
}

#[test]
fn nothing_is_left() {
    assert_eq!(slices_of(256, 2, &[3, 3]), refusal(14, 2));
    assert_eq!(slices_of(256, 1, &[3, 3]), refusal(14, 2));
    assert_eq!(slices_of(256, 2, &[3, 0]), refusal(14, 2));
    assert_eq!(slices_of(256, 2, &[3, 6]), refusal(11, 1));
    assert_eq!(slices_of(256, 2, &[3, 8]), refusal(10, 1));
}

#[test]
fn a_stop_before_the_slices_end() {
    assert_eq!(slices_of(256, 6, &[1]), refusal(14, 5));
    assert_eq!(slices_of(256, 5, &[3, 3]), refusal(14, 4));
    assert_eq!(slices_of(5, 9, &[1]), refusal(14, 5));
}

#[test]
fn more_is_left_than_the_limit() {
    assert_eq!(slices_of(2, 3, &[0]), refusal(12, 0));
    assert_eq!(slices_of(2, 2, &[0]), Ok(vec![0, 0]));
    assert_eq!(slices_of(4, 5, &[1]), refusal(12, 0));
    assert_eq!(slices_of(1, 3, &[7, 0]), refusal(12, 1));
}

#[test]
fn texts() {
    let head = "cells=3\ntaps=6\nchains=2\nchain=1\nchain=4\n";
    let sheet = format!("{head}depth=1\nslice=1x\nslice=01\n");
    let list = format!("{head}stop=11\nslices=2\nseed=3\nseed=4\n");
    assert_eq!(encode_sheet(sheet.as_bytes()), Ok(list.into_bytes()));
    let list = |slices| format!("{head}stop=01\nslices={slices}\nseed=3\nseed=3\n").into_bytes();
    let lines = b"slice=10\nslice=11\nslice=10\n".to_vec();
    assert_eq!(expand_list(&list(3)), Ok(lines));
    assert_eq!(expand_list(&list(2)), refusal(14, 2));
}
