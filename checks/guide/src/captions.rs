// The words of the picture.

use crate::text::character;
use crate::windows::{Sheet, Window};

/// "a, b and c".
fn listed(items: &[String]) -> String {
    match items {
        [] => String::new(),
        [one] => one.clone(),
        [front @ .., last] => format!("{} and {last}", front.join(", ")),
    }
}

/// "cell 0" or "cells 0 and 2": those of a mask.
fn cells_of(mask: u64) -> String {
    let cells = (0..64).filter(|cell| mask >> cell & 1 == 1);
    let cells: Vec<String> = cells.map(|cell| cell.to_string()).collect();
    let noun = if cells.len() == 1 { "cell" } else { "cells" };
    format!("{noun} {}", listed(&cells))
}

/// The lines above the rows: the register, the chains and the stop slice.
pub fn head(sheet: &Sheet) -> Vec<String> {
    let chain = |(number, &mask): (usize, &u64)| {
        let opposite = match sheet.invert >> (number - 1) & 1 {
            0 => "",
            _ => ", inverted",
        };
        format!("Chain {number} reads {}{opposite}.", cells_of(mask))
    };
    let chains: Vec<String> = (1..).zip(&sheet.masks).map(chain).collect();
    let stop = (0..chains.len()).map(|position| character(sheet.stop, position));
    let stop: String = stop.collect();
    let taps = cells_of(sheet.taps);
    let mut lines = Vec::from([format!(
        "Register of {} cells. Tapped, with a dot: {taps}.",
        sheet.cells
    )]);
    lines.extend(chains.chunks(4).map(|part| part.join(" ")));
    lines.push(format!("Stop slice: {stop}. An x asks for nothing."));
    lines
}

/// What is said where a seed is loaded.
pub fn loaded(window: &Window) -> String {
    let first = window.start + 1;
    let last = window.start + window.delivered();
    let tests = match last - first {
        0 => format!("slice {first}"),
        1 => format!("slices {first} and {last}"),
        _ => format!("slices {first} to {last}"),
    };
    format!("seed {:x} is loaded; it covers test {tests}", window.seed)
}
