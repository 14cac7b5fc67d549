// Document 02, R-4: inverted chains. The library and the two programs against the second program, brute force and a model of the register, under every mask of few chains and under wide ones, with numbers and with texts.

pub mod every;
pub mod lines;
pub mod many;
pub mod model;
pub mod orders;
pub mod outside;
pub mod stops;
pub mod texts;
pub mod turning;
pub mod zero;

use crate::call::Call;

/// The weights of so many chains, 1 to 64.
fn all(chains: usize) -> u64 {
    u64::MAX >> (64 - chains)
}

/// The call with these chains turned: inverted where they were not, and the other way round, with their bits of the stop slice and of the test slices turned too.
fn turned(call: &Call, chains: u64) -> Call {
    let mut call = call.clone();
    call.invert ^= chains;
    call.stop.1 ^= call.stop.0 & chains;
    for (bits, specified) in call.bits.iter_mut().zip(&call.specified) {
        *bits ^= specified & chains;
    }
    call
}

/// The call under another mask that asks the same of its register.
fn under(call: &Call, invert: u64) -> Call {
    turned(call, call.invert ^ invert)
}
