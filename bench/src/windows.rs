// The hard windows: all x, near the length where covering ends. A part of a covered window is covered, so that length is found by halving.

use crate::answer::Answer;
use crate::case::{Ask, Case};
use crate::columns::Column;
use crate::measure::{measure, Limits};
use crate::random::Random;
use crate::sets::{some_positions, TAPS};
use seeds::LONGEST_WINDOW;

/// Registers of full period: cells, taps and chains.
pub const REGISTERS: [(usize, u64, usize); 5] = [
    (24, 0xe1_0000, 8),
    (28, 0x900_0000, 16),
    (32, 0x8020_0003, 8),
    (36, 0x8_0100_0000, 16),
    (40, 0xa0_0014_0000, 8),
];

/// The positions of the stop slice.
pub const POSITIONS: [u32; 6] = [1, 2, 3, 4, 5, 6];

/// A window of so many slices of x, for a register with random masks and a random stop slice.
pub fn window(register: (usize, u64, usize), positions: u32, length: usize) -> Case {
    let (cells, taps, chains) = register;
    let mut random = Random(cells as u64 * 100 + u64::from(positions));
    let masks = (0..chains).map(|_| random.bits(cells).max(1)).collect();
    let positions = some_positions(&mut random, chains, positions);
    Case {
        ask: Ask::Window,
        cells,
        taps,
        window_limit: LONGEST_WINDOW,
        masks,
        stop: (positions, random.word() & positions),
        specified: vec![0; length],
        bits: vec![0; length],
    }
}

/// 64 cells, a stop of three positions, 110 slices of x.
pub fn wide() -> Case {
    window((64, TAPS, 8), 3, 110)
}

/// Whether the library finds a seed within the limit.
fn covered(
    register: (usize, u64, usize),
    positions: u32,
    length: usize,
    limit: f64,
) -> Result<bool, String> {
    let limits = Limits { limit, least: 0.0 };
    let case = window(register, positions, length);
    let measured = measure(Column::Ours, &case.text(), limits)?;
    Ok(matches!(measured.answer, Some(Answer::Seeds(_))))
}

/// The greatest length up to 256 that the library finds a seed for, each try within the limit; 0 if there is none.
pub fn longest(register: (usize, u64, usize), positions: u32, limit: f64) -> Result<usize, String> {
    if covered(register, positions, LONGEST_WINDOW, limit)? {
        return Ok(LONGEST_WINDOW);
    }
    let (mut found, mut beyond) = (0, LONGEST_WINDOW);
    while beyond - found > 1 {
        let middle = found + (beyond - found) / 2;
        if covered(register, positions, middle, limit)? {
            found = middle;
        } else {
            beyond = middle;
        }
    }
    Ok(found)
}

/// The lengths that are measured: one less, the greatest and one more, as far as they are lawful; of 256 only that.
pub fn lengths(longest: usize) -> Vec<usize> {
    match longest {
        LONGEST_WINDOW => vec![LONGEST_WINDOW],
        _ => (longest.saturating_sub(1).max(1)..=longest + 1).collect(),
    }
}
