// Inverted chains as a setting (document 02, R-4): the slice of a state, the seed of a window, the seeds of a set and of cubes, expanding, and the line of a text.
// Inverted chains that are none of the chains are in mistakes.rs.

use seeds::{
    encode_cubes, encode_set, encode_sheet, expand, expand_list, slice, stop_slice, window_seed,
    Encoded, Machine, Refusal, Settings, TestSlice, TestSlices,
};

/// Document 01's register R, with the masks of its chains.
const R: Settings = Settings::new(3, 6);
const MASKS: [u64; 2] = [1, 4];

/// Document 01's stop slice 01.
const STOP: TestSlice = TestSlice {
    specified: 3,
    bits: 2,
};

/// Document 01's sheet and its slices 10, x1, 1x, 1x.
const SHEET: &str = include_str!("../../examples/sheet.txt");
const CUBES: TestSlices = TestSlices {
    specified: &[3, 2, 1, 1],
    bits: &[1, 2, 1, 1],
};

/// R with the chains of a mask inverted.
fn inverted(mask: u64) -> Machine<'static> {
    Machine::new(R.with_invert(mask), &MASKS)
}

fn refusal<T>(number: usize, value: usize) -> Result<T, Refusal> {
    Err(Refusal::new(number, value))
}

/// All test slices of two chains.
fn all() -> Vec<TestSlice> {
    let numbers = (0..4).flat_map(|specified| (0..4).map(move |bits| (specified, bits)));
    let lawful = numbers.filter(|(specified, bits)| bits & !specified == 0);
    lawful
        .map(|(specified, bits)| TestSlice { specified, bits })
        .collect()
}

/// The seed of the window of two slices.
fn seed_of(machine: Machine, stop: TestSlice, window: [TestSlice; 2]) -> Result<u64, Refusal> {
    let window = TestSlices {
        specified: &window.map(|slice| slice.specified),
        bits: &window.map(|slice| slice.bits),
    };
    window_seed(machine, stop, window)
}

/// Document 01's sheet with a line more, after its chain lines.
fn sheet_with(line: &str) -> String {
    SHEET.replacen("depth=", &format!("{line}\ndepth="), 1)
}

/// The list of document 01's sheet with a line more.
fn list_with(line: &str) -> Result<String, Refusal> {
    let list = encode_sheet(sheet_with(line).as_bytes())?;
    Ok(String::from_utf8(list).expect("a list"))
}

#[test]
fn the_inverted_chains_are_set_alone() {
    assert_eq!(R.with_invert(2).invert, 2);
    assert_eq!(R.with_limit(64).with_invert(2).limit, 64);
    assert_eq!(R.with_invert(2).with_invert(0), R);
}

#[test]
fn a_slice_has_the_opposite_bits() {
    for mask in 0..4 {
        for state in 0..8 {
            let plain = slice(inverted(0), state).expect("a slice");
            assert_eq!(slice(inverted(mask), state), Ok(plain ^ mask));
        }
    }
    let wide = Settings::new(64, 1 << 63).with_invert(u64::MAX);
    assert_eq!(slice(Machine::new(wide, &[1; 64]), 1), Ok(0));
}

/// A state covers under inversion what it covers without, with the specified bits of window and stop slice opposite at the inverted chains.
#[test]
fn every_window_of_two_slices() {
    let all = all();
    for mask in 0..4 {
        let opposite = |slice: TestSlice| TestSlice {
            bits: slice.bits ^ (mask & slice.specified),
            ..slice
        };
        for &stop in all.iter().filter(|stop| stop.specified != 0) {
            for &first in &all {
                for &second in &all {
                    let window = [first, second];
                    let plain = seed_of(inverted(0), opposite(stop), window.map(opposite));
                    assert_eq!(seed_of(inverted(mask), stop, window), plain);
                }
            }
        }
    }
}

/// Document 01's set 1x, 0x.
#[test]
fn a_set() {
    let set = TestSlices {
        specified: &[1, 1],
        bits: &[1, 0],
    };
    let cut: [&[u64]; 4] = [&[1], &[4], &[7], &[2]];
    for (mask, seeds) in (0..).zip(cut) {
        let mut out = [0; 2];
        let written = encode_set(inverted(mask), STOP, set, &mut out);
        assert_eq!(written.map(|count| &out[..count]), Ok(seeds));
    }
}

/// The stop slice is formed over the slices as written, so it is the same for all.
#[test]
fn the_cubes_of_document_01() {
    let stop = stop_slice(2, CUBES).expect("a stop slice");
    let cut: [&[u64]; 4] = [&[3, 3], &[2, 6, 0], &[5, 1], &[4, 0]];
    for (mask, wanted) in (0..).zip(cut) {
        let (mut seeds, mut slices) = ([0; 4], [0; 4]);
        let encoded = Encoded {
            stop,
            seeds: wanted.len(),
        };
        let written = encode_cubes(inverted(mask), 2, CUBES, &mut seeds);
        assert_eq!(written, Ok(encoded));
        let seeds = &seeds[..encoded.seeds];
        assert_eq!(seeds, wanted);
        let total = expand(inverted(mask), stop, 4, seeds, &mut slices);
        assert_eq!(total, Ok(4));
        for (place, slice) in slices.into_iter().enumerate() {
            assert_eq!(slice & CUBES.specified[place], CUBES.bits[place]);
        }
    }
}

/// Document 01's seeds 6 and 0. Seed 0 has no stop, or shows it at once: as the last seed it is accepted or refused by 11.
#[test]
fn seeds_at_the_stop_and_without_one() {
    let of = |mask, total, seeds: &[u64]| expand(inverted(mask), STOP, total, seeds, &mut [0; 4]);
    let followed = [of(0, 2, &[0, 7]), of(2, 2, &[0, 7])];
    assert_eq!(followed, [refusal(12, 0), refusal(11, 0)]);
    assert_eq!([of(0, 1, &[0]), of(2, 1, &[0])], [Ok(1), refusal(11, 0)]);
    assert_eq!([of(0, 3, &[6]), of(2, 3, &[6])], [refusal(11, 0), Ok(3)]);
}

#[test]
fn the_line_of_a_text() {
    let list = "cells=3\ntaps=6\nchains=2\nchain=1\nchain=4\ninvert=2\nstop=0x\nslices=4\nseed=5\nseed=1\n";
    assert_eq!(list_with("invert=2").as_deref(), Ok(list));
    let slices = expand_list(list.as_bytes()).expect("slices");
    assert_eq!(slices, b"slice=10\nslice=11\nslice=10\nslice=11\n");
    let plain = encode_sheet(SHEET.as_bytes()).expect("a list");
    let plain = String::from_utf8(plain).expect("a list");
    let with_0 = plain.replacen("stop=", "invert=0\nstop=", 1);
    assert_eq!(list_with("invert=0"), Ok(with_0));
    assert_eq!(list_with("invert=4"), refusal(2, 6));
    assert_eq!(list_with("invert=02"), refusal(13, 6));
    assert_eq!(list_with("window=2\ninvert=2"), refusal(13, 7));
    let beyond = list.replacen("invert=2", "invert=4", 1);
    assert_eq!(expand_list(beyond.as_bytes()), refusal(2, 6));
}
