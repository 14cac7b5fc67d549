// The calls that take the most stack, each in a thread whose stack has STACK bytes and no more. A thread whose stack runs out ends the whole test.
// Deepest is the search where all chains have one mask: it takes one vector out at each step, down to a leaf of 12 vectors.

use seeds::{
    encode_cubes, encode_set, encode_sheet, expand, expand_list, window_seed, Machine, Refusal,
    Settings, TestSlice, TestSlices, LONGEST_OUTPUT, LONGEST_WINDOW, MOST_SLICES, STACK,
};
use std::sync::mpsc;
use std::thread::{self, Builder};
use std::time::Duration;

const TAPS: u64 = 0xd800_0000_0000_0000;
const SETTINGS: Settings = Settings::new(64, TAPS);

/// The taps of a ring: the last cell alone.
const RING: u64 = 1 << 63;

/// 64 chains of one mask.
const ALIKE: [u64; 64] = [0x9e37_79b9_7f4a_7c15; 64];

/// A stop slice of two positions that chains of one mask can show.
const BOTH: TestSlice = TestSlice {
    specified: 3,
    bits: 3,
};

/// All slices but the last can be cut.
const LAST_NOT_CUT: Refusal = Refusal::new(8, MOST_SLICES - 1);

/// What a call answers in a thread of so little stack.
fn in_stack<T: Send>(call: impl FnOnce() -> T + Send) -> T {
    thread::scope(|scope| {
        let thread = Builder::new().stack_size(STACK).spawn_scoped(scope, call);
        thread.expect("a thread").join().expect("an answer")
    })
}

/// A sheet of 64 cells, with cubes of one slice.
fn sheet(taps: u64, masks: &[u64], slices: &[String]) -> Vec<u8> {
    let chain = |mask: &u64| format!("chain={mask:x}\n");
    let slice = |slice: &String| format!("slice={slice}\n");
    let chains: String = masks.iter().map(chain).collect();
    let slices: String = slices.iter().map(slice).collect();
    let count = masks.len();
    format!("cells=64\ntaps={taps:x}\nchains={count}\n{chains}depth=1\n{slices}").into_bytes()
}

/// So many slices of x but for the last ones, which begin with a bit.
fn sparse(chains: usize, count: usize, last: &[&str]) -> Vec<String> {
    let x = "x".repeat(chains);
    let mut slices = vec![x.clone(); count - last.len()];
    slices.extend(last.iter().map(|bit| format!("{bit}{}", &x[1..])));
    slices
}

/// The manual's sheet that takes very long, with so many slices.
fn manuals(count: usize) -> Vec<u8> {
    let mut slices = sparse(2, count, &[]);
    slices[..2].clone_from_slice(&["0x".to_string(), "1x".to_string()]);
    sheet(TAPS, &[1, 2], &slices)
}

/// The largest sheet: full slices, each of which needs a seed of its own. Chain j reads cell j-1 of a ring, and cell 0 of each state is 1 and cell 63 is 0, so that the next slice shows the stop.
fn largest() -> (Vec<u64>, Vec<u64>) {
    let masks = (0..64).map(|cell| 1 << cell).collect();
    let word = |place: u64| place.wrapping_mul(0x9e37_79b9_7f4a_7c15);
    let states = (1..=MOST_SLICES as u64).map(|place| word(place) << 1 >> 1 | 1);
    (masks, states.collect())
}

#[test]
fn the_manuals_sheet() {
    let list = in_stack(|| encode_sheet(&manuals(120))).expect("a list");
    let lines = in_stack(|| expand_list(&list)).expect("its slices");
    assert_eq!(lines.split(|&byte| byte == b'\n').count(), 121);
}

/// The whole sheet does not answer in time; within its first second the search is as deep as with 120 slices.
#[test]
fn the_manuals_sheet_for_a_second() {
    let (answered, answer) = mpsc::channel();
    let call = move || answered.send(encode_sheet(&manuals(256)));
    let thread = Builder::new().stack_size(STACK).spawn(call);
    thread.expect("a thread");
    let answer = answer.recv_timeout(Duration::from_secs(1));
    assert!(!matches!(answer, Ok(Err(_))));
}

#[test]
fn chains_of_one_mask_by_text() {
    let slices = sparse(64, MOST_SLICES, &["0", "0", "1"]);
    let answer = in_stack(|| encode_sheet(&sheet(TAPS, &ALIKE, &slices)));
    assert_eq!(answer, Err(LAST_NOT_CUT));
}

/// A window that closes has at most 63 slices; the last one need not close and has as many as the limit.
#[test]
fn chains_of_one_mask_by_numbers() {
    let machine = Machine::new(SETTINGS, &ALIKE);
    let x = vec![0; MOST_SLICES];
    let all_x = |count: usize| TestSlices {
        specified: &x[..count],
        bits: &x[..count],
    };
    assert!(in_stack(|| window_seed(machine, BOTH, all_x(63))).is_ok());
    let mut seeds = vec![0; MOST_SLICES];
    let count = in_stack(|| encode_set(machine, BOTH, all_x(MOST_SLICES), &mut seeds));
    let fewest = (MOST_SLICES - LONGEST_WINDOW).div_ceil(63) + 1;
    assert_eq!(count, Ok(fewest));
    seeds.truncate(fewest);
    let mut slices = vec![0; MOST_SLICES];
    let total = in_stack(|| expand(machine, BOTH, MOST_SLICES, &seeds, &mut slices));
    assert_eq!(total, Ok(MOST_SLICES));
}

#[test]
fn chains_of_one_mask_as_cubes() {
    let (mut specified, mut bits) = (vec![0; MOST_SLICES], vec![0; MOST_SLICES]);
    specified[MOST_SLICES - 3..].fill(1);
    bits[MOST_SLICES - 1] = 1;
    let cubes = TestSlices {
        specified: &specified,
        bits: &bits,
    };
    let machine = Machine::new(SETTINGS, &ALIKE);
    let mut seeds = vec![0; MOST_SLICES];
    let answer = in_stack(|| encode_cubes(machine, 1, cubes, &mut seeds));
    assert_eq!(answer, Err(LAST_NOT_CUT));
}

/// A slice in characters, chain 1 first.
fn characters(slice: u64) -> String {
    let bits = (0..64).map(|chain| slice >> chain & 1);
    bits.map(|bit| ["0", "1"][bit as usize]).collect()
}

#[test]
fn the_largest_sheet_by_text() {
    let (masks, states) = largest();
    let slices: Vec<String> = states.iter().map(|&state| characters(state)).collect();
    let list = in_stack(|| encode_sheet(&sheet(RING, &masks, &slices))).expect("a list");
    let lines = in_stack(|| expand_list(&list)).expect("its slices");
    assert_eq!(lines.len(), LONGEST_OUTPUT);
}

#[test]
fn the_largest_sheet_by_numbers() {
    let (masks, states) = largest();
    let machine = Machine::new(Settings::new(64, RING), &masks);
    let set = TestSlices {
        specified: &[u64::MAX; MOST_SLICES],
        bits: &states,
    };
    let mut seeds = vec![0; MOST_SLICES];
    let encoded = in_stack(|| encode_cubes(machine, 1, set, &mut seeds)).expect("seeds");
    assert_eq!((encoded.seeds, &seeds), (MOST_SLICES, &states));
    let mut slices = vec![0; MOST_SLICES];
    let total = in_stack(|| expand(machine, encoded.stop, MOST_SLICES, &seeds, &mut slices));
    assert_eq!((total, &slices), (Ok(MOST_SLICES), &states));
}
