// A model of register, chains and inverted chains, cell by cell and chain by chain, and of expanding by it, with the last seed by document 02, R-5.

use crate::call::{refused, Call};
use second::Refused;

/// The cells of a state, from cell 0.
fn cells(call: &Call, state: u64) -> Vec<bool> {
    let cell = |cell| state >> cell & 1 == 1;
    (0..call.cells).map(cell).collect()
}

/// Whether an odd number of the cells that a mask names hold 1.
fn odd(cells: &[bool], mask: u64) -> bool {
    let named = |place: usize| mask >> place & 1 == 1;
    let held = (0..cells.len()).filter(|&place| named(place) && cells[place]);
    held.count() % 2 == 1
}

/// The number whose bits these are.
fn number(bits: impl Iterator<Item = bool>) -> u64 {
    let weights = bits.enumerate().filter(|(_, bit)| *bit);
    weights.map(|(place, _)| 1 << place).sum()
}

/// The slice of a state: each chain's bit, the opposite one where the chain is inverted.
pub fn slice(call: &Call, state: u64) -> u64 {
    let cells = cells(call, state);
    let bit = |(place, &mask): (usize, &u64)| match call.invert >> place & 1 {
        1 => !odd(&cells, mask),
        _ => odd(&cells, mask),
    };
    number(call.masks.iter().enumerate().map(bit))
}

/// The state one step later.
pub fn next(call: &Call, state: u64) -> u64 {
    let cells = cells(call, state);
    let first = odd(&cells, call.taps);
    let rest = cells[..call.cells - 1].iter().copied();
    number(std::iter::once(first).chain(rest))
}

/// Whether a slice shows the call's stop.
pub fn stops(call: &Call, slice: u64) -> bool {
    let (specified, bits) = call.stop;
    let mut places = (0..64).filter(|place| specified >> place & 1 == 1);
    places.all(|place| slice >> place & 1 == bits >> place & 1)
}

/// Whether a seed has a cell beyond the register.
fn beyond(call: &Call, seed: u64) -> bool {
    (call.cells..64).any(|cell| seed >> cell & 1 == 1)
}

/// The slices of a state before its stop, so many at most, and whether the stop is what comes next.
fn before_stop(call: &Call, seed: u64, most: usize) -> (Vec<u64>, bool) {
    let (mut state, mut slices) = (seed, Vec::new());
    while !stops(call, slice(call, state)) {
        if slices.len() == most {
            return (slices, false);
        }
        slices.push(slice(call, state));
        state = next(call, state);
    }
    (slices, true)
}

/// How the last seed of a list ends.
#[derive(Clone, Copy, Debug, PartialEq, Eq, PartialOrd, Ord)]
pub enum Ending {
    /// With the slices: it delivers all that are left.
    Whole,
    /// A stop comes before all that are left, which are within the limit: 14.
    Early,
    /// Nothing is left to deliver: 14.
    Nothing,
    /// More slices than the limit are left, and a stop comes within it: 14.
    StopsWithin,
    /// More slices than the limit are left, and no stop comes within it: 12.
    Endless,
    /// The state is beyond the register or shows the stop at once: 10 and 11.
    Refused,
}

/// The slices of a list whose seeds no cause refuses, or its refusal, and how the last seed ends; None without a last seed that is judged.
pub type Expanded = (Result<Vec<u64>, Refused>, Option<Ending>);

/// The last seed, of which nothing stands behind `all`.
fn last_seed(call: &Call, mut all: Vec<u64>, seed: u64) -> Expanded {
    let place = call.seeds.len() - 1;
    if beyond(call, seed) {
        return (refused(10, place), Some(Ending::Refused));
    }
    if stops(call, slice(call, seed)) {
        return (refused(11, place), Some(Ending::Refused));
    }
    let left = call.slices.saturating_sub(all.len());
    let (slices, stopped) = before_stop(call, seed, call.limit.min(left));
    let length = slices.len();
    let ending = match (left, stopped) {
        (0, _) => Ending::Nothing,
        (left, true) if left > call.limit => Ending::StopsWithin,
        (left, false) if left > call.limit => Ending::Endless,
        (left, _) if length < left => Ending::Early,
        _ => Ending::Whole,
    };
    let told = match ending {
        Ending::Endless => refused(12, place),
        Ending::Whole => {
            all.extend(slices);
            Ok(all)
        }
        _ => refused(14, all.len() + length),
    };
    (told, Some(ending))
}

/// The slices of a call's list, which no cause up to 5 refuses, or its refusal, and how the last seed ends.
pub fn ending(call: &Call) -> Expanded {
    let mut all = Vec::new();
    let Some((&last, before)) = call.seeds.split_last() else {
        return (refused(14, 0), None);
    };
    for (place, &seed) in before.iter().enumerate() {
        if beyond(call, seed) {
            return (refused(10, place), None);
        }
        match before_stop(call, seed, call.limit) {
            (slices, true) if slices.is_empty() => return (refused(11, place), None),
            (slices, true) => all.extend(slices),
            (_, false) => return (refused(12, place), None),
        }
    }
    last_seed(call, all, last)
}

/// The slices of a call's list, which no cause up to 5 refuses, or its refusal.
pub fn expanded(call: &Call) -> Result<Vec<u64>, Refused> {
    ending(call).0
}
