// A pattern, which is the stop slice at its specified positions, and the rows of masks that read these positions in later slices.

use super::space::{odd, Space};

/// The positions of a pattern are the columns of its table; the table has one row for each slice.
#[derive(Clone, Copy)]
pub struct Pattern<'a> {
    pub columns: usize,
    pub bits: u64,
    pub table: &'a [u64],
}

/// Whether a state shows the bits in a row: each mask reads its bit. Two masks are read before it branches.
#[inline(always)]
fn shown(row: &[u64], mut bits: u64, state: u64) -> bool {
    row.chunks(2).all(|pair| {
        let mut differs = 0;
        for &mask in pair {
            differs |= odd(state, mask) ^ bits & 1;
            bits >>= 1;
        }
        differs == 0
    })
}

/// Where one position alone decides whether a member shows the row, keeps the members that do not. False where all members show it.
fn force_row(row: &[u64], mut bits: u64, space: &mut Space) -> bool {
    let mut open = None;
    for &mask in row {
        let bit = bits & 1;
        bits >>= 1;
        if space.splits(mask) {
            if open.is_some() {
                return true;
            }
            open = Some((mask, bit));
        } else if odd(space.lowest, mask) != bit {
            return true;
        }
    }
    open.is_some_and(|(mask, bit)| space.restrict(mask, 1 ^ bit))
}

impl<'a> Pattern<'a> {
    /// The first row in which a state shows the pattern, with a loop for each small number of columns.
    pub fn first_shown(self, state: u64) -> Option<&'a [u64]> {
        let shown = |row: &&[u64]| shown(row, self.bits, state);
        match self.columns {
            2 => self.table.chunks_exact(2).find(shown),
            3 => self.table.chunks_exact(3).find(shown),
            4 => self.table.chunks_exact(4).find(shown),
            columns => self.table.chunks_exact(columns).find(shown),
        }
    }

    /// Keeps the members that show no row, as far as single positions decide it, until no row has more to say. False where there are none.
    pub fn force(self, space: &mut Space) -> bool {
        loop {
            let free = space.free();
            for row in self.table.chunks_exact(self.columns) {
                if !force_row(row, self.bits, space) {
                    return false;
                }
            }
            if space.free() == free {
                return true;
            }
        }
    }
}
