// Document 01's bench examples, starred and not: the calls that they make, and the second program's answers.

use crate::call::{refused, Call, DEFAULT_LIMIT};
use crate::report::{same, Outcome};
use second::Refused;

const R_CELLS: usize = 3;
const R_TAPS: u64 = 6;
const R_MASKS: [u64; 2] = [1, 4];

/// Slices as document 01 writes them, as two lists.
fn written(slices: &[&str]) -> (Vec<u64>, Vec<u64>) {
    let read = |text: &&str| second::slice_of(text.as_bytes(), text.len()).expect("a slice");
    slices.iter().map(read).unzip()
}

/// A call for R with a stop slice and test slices as document 01 writes them; its cubes have one slice.
pub fn of_r(stop: &str, slices: &[&str]) -> Call {
    let (specified, bits) = written(slices);
    Call {
        cells: R_CELLS,
        taps: R_TAPS,
        limit: DEFAULT_LIMIT,
        invert: 0,
        masks: R_MASKS.to_vec(),
        stop: second::slice_of(stop.as_bytes(), 2).expect("a stop slice"),
        depth: 1,
        slices: specified.len(),
        specified,
        bits,
        seeds: Vec::new(),
    }
}

/// The call with so many slices of all x.
pub fn all_x(call: Call, count: usize) -> Call {
    Call {
        specified: vec![0; count],
        bits: vec![0; count],
        slices: count,
        ..call
    }
}

/// 64 cells of which cell 63 alone is tapped, and read by the one chain: the state goes round in 64 steps.
pub fn one_tap() -> Call {
    Call {
        cells: 64,
        taps: 1 << 63,
        masks: vec![1 << 63],
        stop: (1, 1),
        ..of_r("1x", &[])
    }
}

/// 9 cells that go round in 511 steps, each read by a chain; the stop is the state 1.
pub fn long_period() -> Call {
    Call {
        cells: 9,
        taps: 0x110,
        masks: (0..9).map(|cell| 1 << cell).collect(),
        stop: (0x1ff, 1),
        ..of_r("1x", &[])
    }
}

/// R with two equal masks.
pub fn equal_masks() -> Call {
    Call {
        masks: vec![1, 1],
        ..of_r("1x", &[])
    }
}

/// The starred windows.
pub fn starred_windows() -> Vec<(Call, Result<u64, Refused>)> {
    vec![
        (of_r("01", &["10", "x1"]), Ok(3)),
        (of_r("01", &["10"]), refused(7, 0)),
        (of_r("01", &["xx", "xx"]), Ok(3)),
        (of_r("01", &["11", "xx"]), refused(7, 0)),
        // the set of these slices has seed 1, which does not close the window
        (of_r("01", &["1x", "0x"]), refused(7, 0)),
    ]
}

/// The starred set, whose last window need not close after R-5 of document 02, and sets with other slices or with more after it.
pub fn starred_sets() -> [(Call, Result<Vec<u64>, Refused>); 4] {
    [
        (of_r("01", &["1x", "0x"]), Ok(vec![1])),
        (of_r("01", &["1x", "0x", "01"]), refused(8, 1)),
        (of_r("01", &["00"]), Ok(vec![0])),
        (of_r("01", &["00", "10"]), refused(8, 0)),
    ]
}

/// The starred sheet as a call, with its stop slice and its seeds.
pub fn sheet_set() -> (Call, Result<Vec<u64>, Refused>) {
    let call = Call {
        depth: 2,
        ..of_r("0x", &["10", "x1", "1x", "1x"])
    };
    (call, Ok(vec![3, 3]))
}

/// A set, and the stop slice that it must get.
type StopOf = (Call, Result<(u64, u64), Refused>);

/// The starred sets whose stop slice steps end with slices in, with their answers after R-1 of document 02: 6 as before, and 11.
pub fn starred_in() -> [StopOf; 2] {
    let one_chain = Call {
        masks: vec![1],
        ..of_r("0x", &["0", "1"])
    };
    let two_chains = of_r("0x", &["1x", "1x", "1x", "10", "00", "01"]);
    [(one_chain, refused(6, 0)), (two_chains, Ok((3, 3)))]
}

/// Document 004's figure 2 with its stop slice, for a register of 64 cells of which each chain reads many.
pub fn figure_set() -> Call {
    let slices = [
        "x001x10x11",
        "10xx0010xx",
        "xx10xx01x1",
        "x1xxxx110x",
        "01x11xx110",
        "x0xxxxxxxx",
    ];
    let mask = |chain: u32| 0x9e37_79b9_7f4a_7c15u64.rotate_left(7 * chain);
    Call {
        cells: 64,
        taps: 0xd800_0000_0000_0000,
        masks: (0..10).map(mask).collect(),
        stop: second::slice_of(b"x1xxxxx0xx", 10).expect("a stop slice"),
        ..of_r("0x", &slices)
    }
}

/// The unstarred windows: lengths at their limits, one tap.
pub fn limit_windows() -> Vec<(Call, Result<u64, Refused>)> {
    let step = |state, _| second::step(9, 0x110, state);
    // 255 steps after the stop is 256 before it
    let before = (0..255).fold(1, step);
    vec![
        // the lowest state that delivers m zeros and then a one in cell 63 has one cell set
        (all_x(one_tap(), 63), Ok(1)),
        (all_x(one_tap(), 1), Ok(1 << 62)),
        // the state has come round
        (all_x(one_tap(), 64), refused(7, 0)),
        (all_x(one_tap(), 256), refused(7, 0)),
        (all_x(one_tap(), 257), refused(3, 0)),
        (all_x(one_tap(), 0), refused(3, 0)),
        (all_x(long_period(), 256), Ok(before)),
        (all_x(long_period(), 257), refused(3, 0)),
    ]
}

/// The unstarred sets: numbers of slices at their limits, equal masks, one tap.
/// The longest window of R with equal masks that closes delivers two zeros; of the one tap, 63. State 0 delivers the last 256 slices or fewer.
pub fn limit_sets() -> Vec<(Call, Result<Vec<u64>, Refused>)> {
    let twos = [vec![6; 896], vec![0]].concat();
    let round = [vec![1; 29], vec![0]].concat();
    vec![
        (all_x(equal_masks(), 2_048), Ok(twos)),
        (all_x(equal_masks(), 2_049), refused(3, 0)),
        (all_x(one_tap(), 2_048), Ok(round)),
    ]
}

/// The starred examples.
pub fn starred() -> Outcome {
    let mut state = 1;
    for next in [2, 5, 3, 7, 6, 4, 1] {
        state = second::step(R_CELLS as u64, R_TAPS, state);
        same("R from state 1", state, next)?;
    }
    let figure = figure_set();
    same("figure 2", figure.stop_slice(), Ok(figure.stop))?;
    for (call, told) in starred_in() {
        same(&format!("the set {call:x?}"), call.stop_slice(), told)?;
    }
    for (call, told) in starred_windows() {
        same(&format!("the window {call:x?}"), call.window_seed(), told)?;
    }
    for (set, told) in starred_sets().into_iter().chain([sheet_set()]) {
        same(&format!("the set {set:x?}"), encoded(&set), told)?;
    }
    Ok(20 + starred_seeds()?)
}

/// Document 01's seeds 6 and 0 for R, and lists of document 02, R-5: the seeds, the number of slices, and the answer.
fn starred_seeds() -> Outcome {
    let lists = [
        (&[6][..], 1, refused(11, 0)),
        (&[0], 1, Ok(1)),
        (&[0], 256, Ok(256)),
        (&[0], 257, refused(12, 0)),
        (&[0, 7], 2, refused(12, 0)),
        (&[7, 0], 2, Ok(2)),
        (&[3, 3], 2, refused(14, 2)),
        (&[3, 3], 3, Ok(3)),
    ];
    for (seeds, slices, told) in lists {
        let call = all_x(of_r("01", &[]), slices);
        let answer = call.expand(seeds, &mut [9; 256]);
        same(&format!("the seeds {seeds:?} of {slices}"), answer, told)?;
    }
    Ok(lists.len())
}

pub const SHEET: &str = "cells=3\ntaps=6\nchains=2\nchain=1\nchain=4\ndepth=2\nslice=10\nslice=x1\nslice=1x\nslice=1x\n";
pub const LIST: &str =
    "cells=3\ntaps=6\nchains=2\nchain=1\nchain=4\nstop=0x\nslices=4\nseed=3\nseed=3\n";
const SLICES: &str = "slice=10\nslice=11\nslice=10\nslice=11\n";

/// Document 01's sheet and list, by function and by program.
pub fn sheet(program: impl Fn(&str, &str) -> Result<String, String>) -> Outcome {
    let text = |bytes: Vec<u8>| String::from_utf8(bytes).expect("printed text is ASCII");
    same(
        "the sheet",
        text(second::encode_text(SHEET.as_bytes())),
        LIST.into(),
    )?;
    same(
        "the list",
        text(second::expand_text(LIST.as_bytes())),
        SLICES.into(),
    )?;
    same(
        "the program on the sheet",
        program("encode", SHEET)?,
        LIST.into(),
    )?;
    same(
        "the program on the list",
        program("expand", LIST)?,
        SLICES.into(),
    )?;
    same(
        "brute force on the sheet",
        program("brute", SHEET)?,
        LIST.into(),
    )?;
    Ok(5)
}

/// The second program's seeds of a set, where there is space.
fn encoded(call: &Call) -> Result<Vec<u64>, Refused> {
    let mut out = vec![9; call.slices];
    let count = call.encode_set(&mut out)?;
    out.truncate(count);
    Ok(out)
}

/// The unstarred examples.
pub fn limits() -> Outcome {
    let mut count = 0;
    for (call, told) in limit_windows() {
        same(&format!("the window {call:x?}"), call.window_seed(), told)?;
        count += 1;
    }
    for (call, told) in limit_sets() {
        let what = format!("{} slices for {} cells", call.slices, call.cells);
        same(&what, encoded(&call), told.clone())?;
        count += 1;
        if let Ok(seeds) = told {
            count += buffers(&call, &seeds)?;
        }
    }
    Ok(count)
}

/// An accepted set with a longer buffer and with one an entry short, and its list expanded again into such buffers.
fn buffers(call: &Call, seeds: &[u64]) -> Outcome {
    let (total, count) = (call.slices, seeds.len());
    let mut long = vec![9; count + 3];
    same("a longer buffer", call.encode_set(&mut long), Ok(count))?;
    same("its entries", &long[..], &[seeds, &[9; 3]].concat()[..])?;
    let mut short = vec![9; count - 1];
    let answer = call.encode_set(&mut short);
    same("one entry short", answer, refused(9, count))?;
    same("its entries", short, vec![9; count - 1])?;
    let answer = call.expand(seeds, &mut vec![9; total]);
    same("the list expanded", answer, Ok(total))?;
    let mut short = vec![9; total - 1];
    let answer = call.expand(seeds, &mut short);
    same("one slice short", answer, refused(9, total))?;
    same("its entries", short, vec![9; total - 1])?;
    Ok(7)
}
