// The library's algorithm in Rust, without proofs and with every acceleration; each window is searched once. Most of its functions have the names of the library's.

mod leaf;
mod pattern;
mod search;
mod space;
mod window;

use window::{room, Machine};

/// The seeds of a set, for windows of at most `limit` slices; or refusal 8's value, the slices of the longest start that can be cut. The window that ends the set need not close with the stop.
pub fn encode(
    cells: usize,
    taps: u64,
    limit: usize,
    masks: &[u64],
    stop: (u64, u64),
    specified: &[u64],
    bits: &[u64],
) -> Result<Vec<u64>, usize> {
    let most = specified.len().min(limit);
    let machine = Machine::new(cells, taps, masks, stop, most);
    let mut room = room();
    let mut seeds = Vec::new();
    let mut start = 0;
    while start < specified.len() {
        let end = specified.len().min(start + limit);
        let closing = end < specified.len();
        let part = (&specified[start..end], &bits[start..end]);
        let reached = machine.reach(part, closing, &mut room);
        let (slices, seed) = reached.ok_or(start)?;
        seeds.push(seed);
        start += slices;
    }
    Ok(seeds)
}

/// The lowest state that covers a window, which closes with the stop.
pub fn window(
    cells: usize,
    taps: u64,
    masks: &[u64],
    stop: (u64, u64),
    specified: &[u64],
    bits: &[u64],
) -> Option<u64> {
    let machine = Machine::new(cells, taps, masks, stop, specified.len());
    machine.seed(specified, bits, &mut room())
}
