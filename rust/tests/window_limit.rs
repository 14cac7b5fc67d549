// The limit of a window as a setting (document 02, R-3): the length of a window, cutting and expanding, at the limit and one slice beyond it.
// Limits out of range are in mistakes.rs.

use seeds::{
    check_cubes, check_set, check_window, encode_cubes, encode_set, expand, step, window_seed,
    Encoded, Machine, Refusal, Settings, TestSlice, TestSlices, LONGEST_WINDOW, MOST_SLICES,
};

/// Document 01's register R, with the masks of its chains.
const R: Settings = Settings::new(3, 6);
const MASKS: [u64; 2] = [1, 4];

/// Document 01's stop slice 01.
const STOP: TestSlice = TestSlice {
    specified: 3,
    bits: 2,
};

/// Document 01's slices 10, x1.
const SET: TestSlices = TestSlices {
    specified: &[3, 2],
    bits: &[1, 2],
};

/// A register of full period, 511, and a chain for each cell: its slices are its states.
const NINE: Settings = Settings::new(9, 0x110);
const EACH: [u64; 9] = [1, 2, 4, 8, 16, 32, 64, 128, 256];

fn limited(limit: usize) -> Machine<'static> {
    Machine::new(R.with_limit(limit), &MASKS)
}

fn refusal<T>(number: usize, value: usize) -> Result<T, Refusal> {
    Err(Refusal::new(number, value))
}

/// So many slices of x.
fn all_x(count: usize) -> TestSlices<'static> {
    TestSlices {
        specified: &[0; MOST_SLICES][..count],
        bits: &[0; MOST_SLICES][..count],
    }
}

/// The seeds of a set of up to four slices.
fn seeds_of(limit: usize, set: TestSlices) -> Result<Vec<u64>, Refusal> {
    let mut seeds = [0; 4];
    let count = encode_set(limited(limit), STOP, set, &mut seeds)?;
    Ok(seeds[..count].to_vec())
}

/// The state of nine cells after so many steps from state 1.
fn after(steps: usize) -> u64 {
    let next = |state, _| step(NINE, state).expect("a state");
    (0..steps).fold(1, next)
}

#[test]
fn the_limit_is_set_alone() {
    assert_eq!(R.with_limit(64).limit, 64);
    assert_eq!(R.with_limit(64).with_limit(256), R);
}

#[test]
fn the_set_of_document_01() {
    for limit in [2, 3, 64, 256] {
        assert_eq!(seeds_of(limit, SET), Ok(vec![3]));
        assert_eq!(window_seed(limited(limit), STOP, SET), Ok(3));
    }
    assert_eq!(seeds_of(1, SET), refusal(8, 0));
    assert_eq!(window_seed(limited(1), STOP, SET), refusal(3, 0));
}

/// As a cube the same slices have the stop slice 0x.
#[test]
fn the_set_of_document_01_as_a_cube() {
    let stop = TestSlice {
        specified: 1,
        bits: 0,
    };
    for (limit, seeds) in [(1, vec![1, 5]), (2, vec![3]), (256, vec![3])] {
        let mut out = [0; 2];
        let encoded = Encoded {
            stop,
            seeds: seeds.len(),
        };
        assert_eq!(encode_cubes(limited(limit), 2, SET, &mut out), Ok(encoded));
        assert_eq!(out[..encoded.seeds], seeds);
    }
}

/// The limit bounds the length of a window, and neither that of a set nor its depth.
#[test]
fn lengths() {
    let most = all_x(MOST_SLICES);
    for limit in [1, 2, 64, 255, 256] {
        let machine = limited(limit);
        assert_eq!(check_window(machine, STOP, all_x(limit)), Ok(()));
        for count in [0, limit + 1] {
            let window = all_x(count);
            assert_eq!(check_window(machine, STOP, window), refusal(3, 0));
            assert_eq!(window_seed(machine, STOP, window), refusal(3, 0));
        }
        assert_eq!(check_set(machine, STOP, most), Ok(()));
        assert_eq!(check_cubes(machine, 256, most), Ok(()));
    }
}

/// The states of R whose first stop is at slice 1, 2 and 3 are 7, 3 and 5, that of state 2 is at 4, and state 0 has none: it is the last seed.
#[test]
fn four_slices_of_x() {
    let cut: [&[u64]; 4] = [&[7, 7, 7, 0], &[3, 0], &[5, 0], &[0]];
    for (limit, seeds) in (1..).zip(cut) {
        assert_eq!(seeds_of(limit, all_x(4)), Ok(seeds.to_vec()));
        let total = expand(limited(limit), STOP, 4, seeds, &mut [0; 4]);
        assert_eq!(total, Ok(4));
    }
    let late = expand(limited(3), STOP, 5, &[7, 2], &mut [0; 5]);
    assert_eq!(late, refusal(12, 1));
}

/// Seed 1 with the stop slice that shows first at the limit, and with the one that shows first at the slice after it.
#[test]
fn a_stop_at_the_limit_and_one_after_it() {
    for limit in [1, 2, 63, 64, 255, 256] {
        let machine = Machine::new(NINE.with_limit(limit), &EACH);
        let stop = |place| TestSlice {
            specified: 511,
            bits: after(place),
        };
        let mut out = [0; LONGEST_WINDOW + 1];
        let late = expand(machine, stop(limit + 1), limit + 1, &[1], &mut out);
        assert_eq!(late, refusal(12, 0));
        assert_eq!(out, [0; LONGEST_WINDOW + 1]);
        let total = expand(machine, stop(limit), limit, &[1], &mut out);
        assert_eq!(total, Ok(limit));
        assert_eq!((out[0], out[limit - 1]), (1, after(limit - 1)));
    }
}
