// The causes of refusal: their numbers on document 01's refusal sheet, and a text for each. docs/library.md has the same texts.

/// Why a call is refused, by its number. New causes get new numbers behind the last.
#[derive(Clone, Copy, Debug, PartialEq, Eq)]
#[non_exhaustive]
pub enum Cause {
    Register = 1,
    Chains = 2,
    Lengths = 3,
    TestSlice = 4,
    StopSlice = 5,
    AllTaken = 6,
    NoSeed = 7,
    NoCutting = 8,
    NoSpace = 9,
    SeedBeyond = 10,
    SeedAtStop = 11,
    SeedEndless = 12,
    Line = 13,
    Total = 14,
}

/// The refusal sheet, by number from 1 on.
const SHEET: [(Cause, &str); 14] = [
    (Cause::Register, "cells not 1 to 64; taps with a bit at or above cells, or without cell cells-1"),
    (Cause::Chains, "chains not 1 to 64; a mask 0 or with a bit at or above cells; an inverted chain that is none of the chains"),
    (Cause::Lengths, "depth or window limit not 1 to 256; window length not 1 to the limit; slices none, above 2,048 or no multiple of depth; more than 2,048 seeds"),
    (Cause::TestSlice, "a test slice with a bit set where it is unspecified, or beyond the chains; its two lists unequally long"),
    (Cause::StopSlice, "a stop slice with no specified position, or with a bit set where it is unspecified, or beyond the chains"),
    (Cause::AllTaken, "the fully specified slices take up all patterns of the chains, so there is no stop slice"),
    (Cause::NoSeed, "no state covers the window"),
    (Cause::NoCutting, "the set can't be cut"),
    (Cause::NoSpace, "the lent buffer is too short"),
    (Cause::SeedBeyond, "a seed with a bit at or above cells"),
    (Cause::SeedAtStop, "a seed whose slice 0 shows the stop"),
    (Cause::SeedEndless, "a seed with no stop in slices 0 to the window limit; the last seed only where more slices than the limit are left"),
    (Cause::Line, "a line out of form or out of order, or text that ends early"),
    (Cause::Total, "the expanded total differs from slices, or nothing is left for the last seed"),
];

impl Cause {
    /// The cause of a number, if it is on the refusal sheet.
    pub fn of(number: usize) -> Option<Cause> {
        let row = SHEET.iter().find(|(cause, _)| *cause as usize == number);
        row.map(|(cause, _)| *cause)
    }

    /// The whole cause, in the words of docs/library.md.
    pub const fn text(self) -> &'static str {
        SHEET[self as usize - 1].1
    }
}
