// What a caller could get wrong: each mistake gets its refusal, and no lent buffer changes. Document 01, "Refusal sheet".
// The right calls are those of document 01's register R: cells 3, taps 6, masks 1 and 4, stop 01.

use seeds::{
    check_cubes, check_list, check_set, check_stop, check_window, encode_cubes, encode_set,
    encode_sheet, encode_text, expand, expand_list, expand_text, slice, step, stop_slice,
    window_seed, Machine, Refusal, Settings, TestSlice, TestSlices, LONGEST_OUTPUT, MOST_SLICES,
};

const R: Machine = Machine::new(Settings::new(3, 6), &[1, 4]);
const STOP: TestSlice = TestSlice {
    specified: 3,
    bits: 2,
};
const SET: TestSlices = TestSlices {
    specified: &[3, 2],
    bits: &[1, 2],
};
const SHEET: &[u8] = include_bytes!("../../examples/sheet.txt");
const UNTOUCHED: u64 = 0xdead_beef;

fn refusal<T>(number: usize, value: usize) -> Result<T, Refusal> {
    Err(Refusal::new(number, value))
}

/// A call with a buffer of so many entries that must be refused: the buffer is as it was.
fn refused<T: std::fmt::Debug + PartialEq>(
    room: usize,
    number: usize,
    value: usize,
    call: impl FnOnce(&mut [u64]) -> Result<T, Refusal>,
) {
    let mut out = vec![UNTOUCHED; room];
    assert_eq!(call(&mut out), refusal(number, value));
    assert!(out.iter().all(|&entry| entry == UNTOUCHED));
}

/// Every call over a machine with a window, a cutting or an expanding in it is refused by the number.
fn windows_refused(machine: Machine, number: usize) {
    assert_eq!(check_window(machine, STOP, SET), refusal(number, 0));
    assert_eq!(check_set(machine, STOP, SET), refusal(number, 0));
    assert_eq!(check_cubes(machine, 1, SET), refusal(number, 0));
    assert_eq!(check_list(machine, STOP, 2, 1), refusal(number, 0));
    assert_eq!(window_seed(machine, STOP, SET), refusal(number, 0));
    refused(2, number, 0, |out| encode_set(machine, STOP, SET, out));
    refused(2, number, 0, |out| encode_cubes(machine, 1, SET, out));
    refused(2, number, 0, |out| expand(machine, STOP, 2, &[3], out));
}

/// Every call over a machine is refused by the number.
fn all_refused(machine: Machine, number: usize) {
    assert_eq!(slice(machine, 9), refusal(number, 0));
    windows_refused(machine, number);
}

#[test]
fn the_right_calls() {
    assert_eq!(window_seed(R, STOP, SET), Ok(3));
    let mut seeds = [UNTOUCHED; 3];
    assert_eq!(encode_set(R, STOP, SET, &mut seeds), Ok(1));
    assert_eq!(seeds, [3, UNTOUCHED, UNTOUCHED]);
    let mut slices = [UNTOUCHED; 3];
    assert_eq!(expand(R, STOP, 2, &seeds[..1], &mut slices), Ok(2));
    assert_eq!(slices, [1, 3, UNTOUCHED]);
}

#[test]
fn cells_and_taps() {
    for cells in [0, 65, 1 << 32, usize::MAX] {
        let settings = Settings::new(cells, 6);
        assert_eq!(step(settings, 9), refusal(1, 0));
        all_refused(Machine::new(settings, R.masks), 1);
    }
    for taps in [0, 2, 8 | 4, u64::MAX] {
        let settings = Settings::new(3, taps);
        assert_eq!(step(settings, 9), refusal(1, 0));
        all_refused(Machine::new(settings, R.masks), 1);
    }
}

#[test]
fn states() {
    assert_eq!(step(R.settings, 7), Ok(6));
    assert_eq!(slice(R, 6), Ok(2));
    for state in [8, 9, u64::MAX] {
        assert_eq!(step(R.settings, state), refusal(10, 0));
        assert_eq!(slice(R, state), refusal(10, 0));
    }
    let wide = Settings::new(64, 1 << 63);
    assert_eq!(step(wide, u64::MAX), Ok(u64::MAX));
    assert_eq!(slice(Machine::new(wide, &[1 << 63]), u64::MAX), Ok(1));
}

#[test]
fn no_chain_too_many_chains_and_unlawful_masks() {
    all_refused(Machine::new(R.settings, &[]), 2);
    all_refused(Machine::new(R.settings, &[1; 65]), 2);
    all_refused(Machine::new(R.settings, &[1, 0]), 2);
    all_refused(Machine::new(R.settings, &[1, 8]), 2);
    assert_eq!(stop_slice(0, SET), refusal(2, 0));
    assert_eq!(stop_slice(65, SET), refusal(2, 0));
    assert_eq!(check_stop(usize::MAX, SET), refusal(2, 0));
}

#[test]
fn no_slice_and_too_many() {
    let none = TestSlices {
        specified: &[],
        bits: &[],
    };
    let zeros = [0; MOST_SLICES + 1];
    let many = |count: usize| TestSlices {
        specified: &zeros[..count],
        bits: &zeros[..count],
    };
    for set in [none, many(MOST_SLICES + 1)] {
        assert_eq!(check_set(R, STOP, set), refusal(3, 0));
        assert_eq!(stop_slice(2, set), refusal(3, 0));
        refused(1, 3, 0, |out| encode_set(R, STOP, set, out));
        refused(1, 3, 0, |out| encode_cubes(R, 1, set, out));
    }
    for window in [none, many(257)] {
        assert_eq!(window_seed(R, STOP, window), refusal(3, 0));
    }
}

#[test]
fn depth_and_totals() {
    for depth in [0, 3, 257, usize::MAX] {
        refused(2, 3, 0, |out| encode_cubes(R, depth, SET, out));
    }
    for slices in [0, MOST_SLICES + 1, usize::MAX] {
        refused(2, 3, 0, |out| expand(R, STOP, slices, &[3], out));
    }
    let seeds = [3; MOST_SLICES + 1];
    refused(2, 3, 0, |out| expand(R, STOP, 2, &seeds, out));
    assert_eq!(check_list(R, STOP, 2, usize::MAX), refusal(3, 0));
}

/// Limits of a window out of range. Causes 1 and 2 come first; a step and a slice have no window.
#[test]
fn limits() {
    for limit in [0, 257, 1 << 32, usize::MAX] {
        let settings = R.settings.with_limit(limit);
        windows_refused(Machine::new(settings, R.masks), 3);
        windows_refused(Machine::new(settings, &[1, 8]), 2);
        let cells = Settings::new(0, 6).with_limit(limit);
        windows_refused(Machine::new(cells, R.masks), 1);
        assert_eq!(step(settings, 7), Ok(6));
        assert_eq!(slice(Machine::new(settings, R.masks), 6), Ok(2));
    }
}

/// Inverted chains that are none of the chains. Cause 1 comes first, cause 3 later; a step has no chains.
#[test]
fn inverted_chains() {
    for mask in [4, 4 | 1, 1 << 63, u64::MAX] {
        let settings = R.settings.with_invert(mask);
        all_refused(Machine::new(settings, R.masks), 2);
        windows_refused(Machine::new(settings.with_limit(0), R.masks), 2);
        let cells = Settings::new(0, 6).with_invert(mask);
        all_refused(Machine::new(cells, R.masks), 1);
        assert_eq!(step(settings, 7), Ok(6));
    }
}

#[test]
fn lists_unequally_long_and_unlawful_slices() {
    let bad: [(&[u64], &[u64]); 5] = [
        (&[3, 2], &[1]),
        (&[3, 2], &[1, 2, 0]),
        (&[3, 1], &[1, 2]),
        (&[4, 2], &[0, 2]),
        (&[3, 2], &[]),
    ];
    for (specified, bits) in bad {
        let set = TestSlices { specified, bits };
        assert_eq!(window_seed(R, STOP, set), refusal(4, 0));
        assert_eq!(stop_slice(2, set), refusal(4, 0));
        refused(2, 4, 0, |out| encode_set(R, STOP, set, out));
        refused(2, 4, 0, |out| encode_cubes(R, 1, set, out));
    }
}

#[test]
fn stop_slices() {
    for (specified, bits) in [(0, 0), (1, 2), (4, 4), (u64::MAX, 0)] {
        let stop = TestSlice { specified, bits };
        assert_eq!(check_window(R, stop, SET), refusal(5, 0));
        assert_eq!(window_seed(R, stop, SET), refusal(5, 0));
        refused(2, 5, 0, |out| encode_set(R, stop, SET, out));
        refused(2, 5, 0, |out| expand(R, stop, 2, &[3], out));
    }
}

#[test]
fn sets_without_stop_slice_seed_or_cutting() {
    let one = TestSlices {
        specified: &[1, 1],
        bits: &[0, 1],
    };
    assert_eq!(stop_slice(1, one), refusal(6, 0));
    let alone = TestSlices {
        specified: &[3],
        bits: &[1],
    };
    assert_eq!(window_seed(R, STOP, alone), refusal(7, 0));
    let uncut = TestSlices {
        specified: &[1, 3, 3],
        bits: &[1, 0, 1],
    };
    refused(0, 8, 1, |out| encode_set(R, STOP, uncut, out));
    refused(9, 8, 1, |out| encode_set(R, STOP, uncut, out));
}

#[test]
fn buffers_too_short() {
    let twice = TestSlices {
        specified: &[3, 2, 3, 2],
        bits: &[1, 2, 1, 2],
    };
    refused(0, 9, 2, |out| encode_set(R, STOP, twice, out));
    refused(1, 9, 2, |out| encode_set(R, STOP, twice, out));
    refused(1, 9, 2, |out| encode_cubes(R, 2, twice, out));
    refused(3, 9, 4, |out| expand(R, STOP, 4, &[3, 3], out));
    refused(0, 9, 4, |out| expand(R, STOP, 4, &[3, 3], out));
}

#[test]
fn seeds() {
    refused(9, 10, 1, |out| expand(R, STOP, 4, &[3, 8], out));
    refused(9, 11, 0, |out| expand(R, STOP, 4, &[6, 3], out));
    refused(9, 12, 1, |out| expand(R, STOP, 6, &[3, 0, 3], out));
    refused(9, 14, 4, |out| expand(R, STOP, 5, &[3, 3], out));
    refused(9, 14, 2, |out| expand(R, STOP, 2, &[3, 3], out));
    refused(9, 14, 0, |out| expand(R, STOP, 5, &[], out));
}

#[test]
fn texts() {
    let list = encode_sheet(SHEET).expect("document 01's sheet");
    for room in 0..list.len() {
        let mut out = vec![7; room];
        let short = Refusal {
            number: 9,
            value: list.len(),
            entries: 2,
        };
        assert_eq!(encode_text(SHEET, &mut out), Err(short));
        assert!(out.iter().all(|&byte| byte == 7));
    }
    let mut out = vec![7; LONGEST_OUTPUT];
    assert_eq!(encode_text(b"", &mut out), refusal(13, 1));
    assert_eq!(expand_text(SHEET, &mut out), refusal(13, 6));
    assert_eq!(encode_text(&list, &mut out), refusal(13, 6));
    assert_eq!(encode_text(&[0xff; 100], &mut out), refusal(13, 1));
    assert!(out.iter().all(|&byte| byte == 7));
    assert_eq!(encode_sheet(b"cells=0\n"), refusal(1, 1));
    let slices = expand_list(&list).expect("its list");
    assert_eq!(slices, b"slice=10\nslice=11\nslice=10\nslice=11\n");
}

#[test]
fn refusals_are_for_people() {
    let refusal = Refusal::new(8, 1);
    assert_eq!(refusal.to_string(), "refused=8 at=1: the set can't be cut");
    let known = (1..=14).map(|number| Refusal::new(number, 0).cause());
    let known: std::collections::HashSet<_> = known.collect();
    assert_eq!(known.len(), 14);
}
