// A lent buffer: both programs get a copy of the same one, and every entry is compared, also those on its sides that are no part of it.

use crate::library::Like;
use crate::random::Random;
use crate::report::same;
use second::Refused;
use std::fmt::Debug;

/// Entries on each side of a lent buffer that are no part of it.
const MARGIN: usize = 2;

/// The second program's answer to a call with a buffer of `room` random words, and what the buffer then holds.
/// The library's answer must be the same, and so must each entry; on refusal each is as it was.
pub fn lend<A, T>(
    random: &mut Random,
    room: usize,
    ours: impl FnOnce(&mut [u64]) -> A,
    theirs: impl FnOnce(&mut [u64]) -> Result<T, Refused>,
) -> Result<(Result<T, Refused>, Vec<u64>), String>
where
    A: Like<T> + PartialEq + Debug,
    T: Copy,
{
    let lent: Vec<u64> = (0..room + 2 * MARGIN).map(|_| random.word()).collect();
    let (mut left, mut right) = (lent.clone(), lent.clone());
    let buffer = MARGIN..MARGIN + room;
    let told = theirs(&mut right[buffer.clone()]);
    let answer = ours(&mut left[buffer.clone()]);
    same("the answer", answer, A::like(told))?;
    if told.is_err() && right != lent {
        return Err("the second program writes on refusal".into());
    }
    for (place, (left, right)) in left.iter().zip(&right).enumerate() {
        if left != right {
            return Err(format!(
                "entry {place} of {MARGIN} + {room} + {MARGIN}: {left:x} against {right:x}"
            ));
        }
    }
    Ok((told, left[buffer].to_vec()))
}
