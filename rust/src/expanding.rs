// The slices of a seed list. Document 01, "Refusal sheet", the causes of expanding.

use crate::{entries, Machine, Refusal, TestSlice};

/// The slices of a seed list, written into `out`; how many. Causes 1, 2, 3, 5, then 10, 11, 12 of the first refused seed, then 14, then 9.
///
/// Each seed but the last delivers the slices before its stop. The last one ends when `slices` are delivered, whatever its next slice shows; it need not have a stop. Where its stop comes before, or nothing is left for it, the answer is 14 with the total found. It is refused by 12 only where more slices than the limit are left.
pub fn expand(
    machine: Machine,
    stop: TestSlice,
    slices: usize,
    seeds: &[u64],
    out: &mut [u64],
) -> Result<usize, Refusal> {
    let told = entries::expand(machine, stop, slices, seeds, out);
    Refusal::unless_accepted(told.number, told.value)?;
    Ok(told.value)
}
