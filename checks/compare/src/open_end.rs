// Document 02, R-5: no stop after the last seed. The library and the two programs against the second program, brute force and a model of the rule: sets whose last window does not close, lists whose last seed ends with the slices, with numbers and with texts.

pub mod endings;
pub mod lengths;
pub mod lists;
mod model;
pub mod sets;
pub mod texts;
pub mod wide;
pub mod wrong;
