// Both iterations of document 004's figure 2: the counts as functions give them, as the second program prints them, and the library's stop slices of each iteration.

use crate::library::{self, Like, StopAnswer};
use crate::report::{same, Outcome};

const SLICES: [&str; 6] = [
    "x001x10x11",
    "10xx0010xx",
    "xx10xx01x1",
    "x1xxxx110x",
    "01x11xx110",
    "x0xxxxxxxx",
];

const FIRST_ZEROS: [u64; 10] = [1, 3, 1, 1, 1, 1, 2, 1, 1, 1];
const FIRST_ONES: [u64; 10] = [1, 2, 1, 2, 1, 1, 2, 3, 2, 2];
// with two slices in; position 2 is set already
const SECOND_ZEROS: [u64; 10] = [1, 0, 0, 0, 0, 0, 0, 0, 1, 1];
const SECOND_ONES: [u64; 10] = [0, 2, 0, 1, 1, 0, 1, 2, 1, 0];

fn read(text: &str) -> (u64, u64) {
    second::slice_of(text.as_bytes(), 10).expect("a slice")
}

/// The figure's slices as two lists.
fn lists() -> (Vec<u64>, Vec<u64>) {
    SLICES.iter().map(|text| read(text)).unzip()
}

pub fn counts() -> Outcome {
    let (specified, bits) = lists();
    let trace = second::stop_trace(10, &specified, &bits)
        .map_err(|r| format!("refused by {}", r.number))?;
    same("the number of iterations", trace.iterations.len(), 2)?;
    let (first, next) = (&trace.iterations[0], &trace.iterations[1]);
    same(
        "0s of the first iteration",
        &first.zeros[..],
        &FIRST_ZEROS[..],
    )?;
    same(
        "1s of the first iteration",
        &first.ones[..],
        &FIRST_ONES[..],
    )?;
    same(
        "the first position and bit",
        (first.position, first.bit),
        (2, 1),
    )?;
    same(
        "0s of the second iteration",
        &next.zeros[..],
        &SECOND_ZEROS[..],
    )?;
    same(
        "1s of the second iteration",
        &next.ones[..],
        &SECOND_ONES[..],
    )?;
    same(
        "the second position and bit",
        (next.position, next.bit),
        (8, 0),
    )?;
    same("the slices removed at last", &next.removed[..], &[3, 4][..])?;
    same("the slices still in", trace.left.len(), 0)?;
    same(
        "the stop slice",
        (trace.stop_spec, trace.stop_bits),
        read("x1xxxxx0xx"),
    )?;
    Ok(10)
}

/// The library's stop slice of some of the figure's slices, without the positions of `set`, against the one that is told.
fn left_by(places: &[usize], set: u64, told: (u64, u64)) -> Result<(), String> {
    let (specified, bits) = lists();
    let pick = |list: &[u64]| places.iter().map(|&place| list[place] & !set).collect();
    let (specified, bits): (Vec<u64>, Vec<u64>) = (pick(&specified), pick(&bits));
    let ours = library::stop(10, &specified, &bits);
    let what = format!("the stop slice of the slices {places:?} without the positions {set:x}");
    same(&what, ours, StopAnswer::like(Ok(told)))
}

/// Both iterations by the library: what is left of the stop slice for the slices still in, and the one position for those that go out.
pub fn by_library() -> Outcome {
    let (specified, bits) = lists();
    let trace = second::stop_trace(10, &specified, &bits)
        .map_err(|r| format!("refused by {}", r.number))?;
    let told = read("x1xxxxx0xx");
    let mut still_in: Vec<usize> = (0..SLICES.len()).collect();
    let (mut set, mut count) = (0, 0);
    for step in &trace.iterations {
        let weight = 1 << (step.position - 1);
        left_by(&still_in, set, (told.0 & !set, told.1 & !set))?;
        left_by(&step.removed, set, (weight, told.1 & weight))?;
        still_in.retain(|place| !step.removed.contains(place));
        set |= weight;
        count += 2;
    }
    same("the positions set", set, told.0)?;
    same("the slices still in", still_in.len(), 0)?;
    Ok(count + 2)
}

/// The numbers of each counted line that the program prints, in order.
pub fn printed(program: impl Fn(&str, &str) -> Result<String, String>) -> Outcome {
    let text = program("figure2", "")?;
    let mut lines = text.lines().filter_map(row_of_ten);
    for (name, row) in [
        ("0s of the first iteration", FIRST_ZEROS),
        ("1s of the first iteration", FIRST_ONES),
        ("0s of the second iteration", SECOND_ZEROS),
        ("1s of the second iteration", SECOND_ONES),
    ] {
        same(&format!("printed {name}"), lines.next(), Some(row.to_vec()))?;
    }
    same("further rows of ten numbers", lines.next(), None)?;
    same("the printed stop slice", text.contains("x1xxxxx0xx"), true)?;
    Ok(6)
}

/// The ten numbers at the end of a line, if it has just these after its words.
fn row_of_ten(line: &str) -> Option<Vec<u64>> {
    let row: Vec<u64> = line
        .split_whitespace()
        .filter_map(|word| word.parse().ok())
        .collect();
    (row.len() == 10).then_some(row)
}
