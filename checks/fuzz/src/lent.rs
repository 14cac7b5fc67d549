// Lent buffers: filled with known entries, with more of them on both sides, so that every entry that a call changes is seen.

use std::fmt::Debug;

/// Entries on each side of a lent buffer that are no part of it.
const MARGIN: usize = 16;

/// How many entries to lend where `needed` are: just these, one less, none, half, one more or many more.
pub fn room(choice: u8, needed: usize) -> usize {
    match choice % 6 {
        0 => needed,
        1 => needed.saturating_sub(1),
        2 => 0,
        3 => needed / 2,
        4 => needed + 1,
        _ => needed + 100,
    }
}

/// A call with a buffer of `room` entries, each of the kind that `entry` gives for a place: its answer.
/// After it the buffer must hold `written` in front, and be as it was behind and on both sides.
pub fn lend<E: Copy + PartialEq + Debug, A>(
    room: usize,
    written: &[E],
    entry: impl Fn(usize) -> E,
    call: impl FnOnce(&mut [E]) -> A,
) -> A {
    let mut expected: Vec<E> = (0..room + 2 * MARGIN).map(entry).collect();
    let mut lent = expected.clone();
    let answer = call(&mut lent[MARGIN..MARGIN + room]);
    expected[MARGIN..MARGIN + written.len()].copy_from_slice(written);
    assert_eq!(lent, expected, "the buffer and its sides");
    answer
}
