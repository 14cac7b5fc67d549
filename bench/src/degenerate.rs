// Degenerate registers: a ring (the last cell alone is tapped), chains with equal masks, and a single chain.

use crate::case::{Ask, Case};
use crate::random::Random;
use crate::sets::{some_positions, stop_by_steps, TAPS};
use seeds::LONGEST_WINDOW;

const RING: u64 = 1 << 63;

/// The densities of the sets.
pub const PERCENT: [u64; 2] = [5, 2];

/// A register with its chains, by a name.
#[derive(Clone)]
pub struct Register {
    pub name: &'static str,
    taps: u64,
    masks: Vec<u64>,
}

/// The three registers, of 64 cells.
pub fn registers() -> Vec<Register> {
    let mut random = Random(64);
    let mut words = |count: usize| -> Vec<u64> { (0..count).map(|_| random.word()).collect() };
    let of = |name, taps, masks| Register { name, taps, masks };
    let alike = words(1)[0];
    vec![
        of("ring, 16 chains", RING, words(16)),
        of("16 equal masks", TAPS, vec![alike; 16]),
        of("one chain", TAPS, words(1)),
    ]
}

/// A window of x with a stop of so many positions. Where the masks are equal, the stop's bits are too; otherwise it never shows.
pub fn window(register: &Register, positions: u32, length: usize) -> Case {
    let chains = register.masks.len();
    let mut random = Random(640 + u64::from(positions));
    let positions = some_positions(&mut random, chains, positions);
    let equal = register.masks.iter().all(|&mask| mask == register.masks[0]);
    let bits = if equal {
        positions
    } else {
        random.word() & positions
    };
    Case {
        ask: Ask::Window,
        cells: 64,
        taps: register.taps,
        window_limit: LONGEST_WINDOW,
        masks: register.masks.clone(),
        stop: (positions, bits),
        specified: vec![0; length],
        bits: vec![0; length],
    }
}

/// The windows of a register: positions of the stop and length. A ring repeats after 64 slices, so 64 and more have no seed.
pub fn windows(register: &Register) -> Vec<(u32, usize)> {
    let mut windows = Vec::new();
    for positions in [1, 3] {
        if positions <= register.masks.len() as u32 {
            windows.extend([40, 63, 64, 256].map(|length| (positions, length)));
        }
    }
    windows
}

/// A set of 256 slices, so many hundredths specified, with the stop slice by the steps. Where masks are equal or there is one, all specified bits are 0: others would have no stop slice or no cutting.
pub fn set(register: &Register, percent: u64) -> Result<Case, String> {
    let chains = register.masks.len();
    let mut random = Random(6_400 + percent);
    let mut case = window(register, 1, 0);
    case.ask = Ask::Set;
    for _ in 0..256 {
        let specified = random.sparse(chains, percent);
        let bits = random.word() & specified;
        case.specified.push(specified);
        case.bits.push(if register.taps == RING { bits } else { 0 });
    }
    case.stop = stop_by_steps(&case)?;
    Ok(case)
}
