// Document 02, R-3: the limit of windows. The library and the two programs against the second program at every limit from 1 to 256 and outside, with numbers and with texts.

pub mod damaged;
mod delivery;
pub mod every;
pub mod few;
pub mod growing;
pub mod lines;
pub mod lists;
pub mod outside;
pub mod texts;

/// Every lawful limit, by document 02.
const LAWFUL: std::ops::RangeInclusive<usize> = 1..=256;
