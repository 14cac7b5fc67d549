// Holds the set of all states that satisfy linear equations over GF(2).
// Follows document 004, section II (linear equations); the order of states is document 01's.

use crate::register::{low_bits, odd};

/// A form on a plane: bits 0 to 63 name free cells, bit 64 is the form's value at the
/// lowest state of the plane. Its value at a state of the plane is bit 64 plus the
/// state's bits in the named cells, modulo 2.
pub type Form = u128;

/// The bit of a form that holds its value at the lowest state.
pub const ONE: Form = 1 << 64;

/// The free cells that a form names.
pub fn names(form: Form) -> u64 {
    form as u64
}

/// The states `low` plus any sum of `dirs[h]` over free cells h, and no others.
///
/// For each free cell h: bit h is the highest bit of `dirs[h]`; bit h is 0 in `low` and
/// in the direction of every other free cell. So two states of the plane compare as
/// their bits in the free cells do, and `low` is the lowest.
#[derive(Clone, Debug)]
pub struct Plane {
    pub low: u64,
    pub free: u64,
    dirs: [u64; 64],
}

impl Plane {
    /// All states of a register.
    pub fn all(cells: u64) -> Plane {
        let mut dirs = [0; 64];
        for (cell, dir) in dirs.iter_mut().enumerate() {
            *dir = 1 << cell;
        }
        Plane {
            low: 0,
            free: low_bits(cells),
            dirs,
        }
    }

    /// The sum of the state's cells in `row`, written as a form on this plane.
    pub fn form(&self, row: u64) -> Form {
        let mut named = 0;
        for cell in cells_of(self.free) {
            named |= odd(row & self.dirs[cell]) << cell;
        }
        Form::from(named) | Form::from(odd(row & self.low)) << 64
    }

    /// Keeps the states where the form is 0. False if there are none; the plane is then
    /// as it was. The lowest named cell is no longer free.
    pub fn keep_zeros(&mut self, form: Form) -> bool {
        let named = names(form);
        if named == 0 {
            return form & ONE == 0;
        }
        let pivot = named.trailing_zeros() as usize;
        let dir = self.dirs[pivot];
        for cell in cells_of(named) {
            self.dirs[cell] ^= dir;
        }
        if form & ONE != 0 {
            self.low ^= dir;
        }
        self.free &= !(1 << pivot);
        true
    }

    /// Keeps the states whose cells in `row` sum to `bit`. False if there are none.
    pub fn keep_row(&mut self, row: u64, bit: u64) -> bool {
        let form = self.form(row) ^ (Form::from(bit & 1) << 64);
        self.keep_zeros(form)
    }
}

/// The cells named by a number, lowest first.
fn cells_of(mut word: u64) -> impl Iterator<Item = usize> {
    std::iter::from_fn(move || {
        if word == 0 {
            return None;
        }
        let cell = word.trailing_zeros() as usize;
        word &= word - 1;
        Some(cell)
    })
}
