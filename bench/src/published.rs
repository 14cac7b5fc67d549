// The number of seeds by document 004's own procedure (section IV), with document 01's register, stop slice and order of slices.
// Slices are taken one by one into the current seed's equations; after each but the last of the set, it is examined whether the stop slice can follow. At the first slice that fails, the stop follows the one before and a new seed begins. The last seed has no stop behind it.
//
// Where 004 is open or 01 says otherwise:
// - 004 picks the next cube; here the slices stay in the order of the set, as in 01.
// - A slice compatible with the stop gets one of its x set at once, as 004 did it. Which one is open: here the leftmost with which the slice and the stop behind it, where it has one, can be met.
// - A seed has at most as many slices as the window limit of the case: 256, as in 01, in all but one row of `bench quick`.
// - The seed is any solution; here the lowest.

use crate::case::{Case, NONE_INVERTED};
use crate::space::{rows, Space};

/// The place of a slice that the procedure cannot encode, though it stands first in its window.
#[derive(Debug, PartialEq)]
pub struct Stuck(pub usize);

struct Procedure<'a> {
    case: &'a Case,
    table: Vec<Vec<u64>>,
}

impl Procedure<'_> {
    /// The space with the stop as slice t.
    fn closed(&self, space: &Space, t: usize) -> Option<Space> {
        let mut closed = space.clone();
        let (specified, bits) = self.case.stop;
        closed
            .keep_slice(&self.table[t], specified, bits)
            .then_some(closed)
    }

    /// The space with the set's slice at `place` as slice t, such that the stop can follow; and the space with it. Behind the set's last slice nothing need follow.
    fn taken(&self, space: &Space, place: usize, t: usize) -> Option<(Space, Space)> {
        let (specified, bits) = (self.case.specified[place], self.case.bits[place]);
        let (positions, stop) = self.case.stop;
        let mut space = space.clone();
        if !space.keep_slice(&self.table[t], specified, bits) {
            return None;
        }
        let last = place + 1 == self.case.specified.len();
        let closed_after = |space: Space| {
            let closed = match last {
                true => space.clone(),
                false => self.closed(&space, t + 1)?,
            };
            Some((space, closed))
        };
        if specified & positions & (bits ^ stop) != 0 {
            return closed_after(space);
        }
        let open = positions & !specified;
        let mut chains = (0..self.case.masks.len()).filter(|chain| open >> chain & 1 == 1);
        chains.find_map(|chain| {
            let mut forced = space.clone();
            let differs = stop >> chain & 1 == 0;
            let met = forced.keep(self.table[t][chain], differs);
            met.then_some(forced).and_then(closed_after)
        })
    }

    /// The window from a start: its length, 0 if its first slice fails, and its seed.
    fn window(&self, start: usize) -> (usize, u64) {
        let mut space = Space::all(self.case.cells);
        let (mut length, mut seed) = (0, 0);
        let left = self.case.specified.len() - start;
        let most = self.case.window_limit.min(left);
        while length < most {
            let Some((next, closed)) = self.taken(&space, start + length, length) else {
                break;
            };
            (space, seed) = (next, closed.lowest);
            length += 1;
        }
        (length, seed)
    }
}

/// Whether a state covers the case's slices from `start` on, by running the register. The window that ends the set need not close with the stop.
fn covers(case: &Case, start: usize, length: usize, seed: u64) -> bool {
    let part = start..start + length;
    second::covers(
        case.cells as u64,
        case.taps,
        case.window_limit as u64,
        NONE_INVERTED,
        &case.masks,
        case.stop.0,
        case.stop.1,
        &case.specified[part.clone()],
        &case.bits[part],
        seed,
        start + length < case.specified.len(),
    )
}

/// The number of seeds for a set. An outer error is a window that its seed does not cover.
pub fn seeds(case: &Case) -> Result<Result<usize, Stuck>, String> {
    let table = rows(case, case.window_limit);
    let procedure = Procedure { case, table };
    let (mut count, mut start) = (0, 0);
    while start < case.specified.len() {
        let (length, seed) = procedure.window(start);
        if length == 0 {
            return Ok(Err(Stuck(start)));
        }
        if !covers(case, start, length, seed) {
            return Err(format!(
                "004's procedure: the seed {seed:x} does not cover slices {start} to {}",
                start + length
            ));
        }
        count += 1;
        start += length;
    }
    Ok(Ok(count))
}
