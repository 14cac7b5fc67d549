// Holds the encoding program's text as the brute force finds it.
// Follows document 01, "Sheet and seed list", and document 02, R-3 ("fewest" is meant among
// windows up to the window limit), R-4 (slices come out with the inverted chains) and R-5
// (the window that ends the set need not close with its stop).

use crate::brute::{brute_set, covers, BruteSet};
use crate::lines::refusal_text;
use crate::sheet::Sheet;
use crate::stop::stop_slice;
use crate::{refuse, Refused};

/// What the brute force says of a sheet.
#[derive(Clone, Debug, PartialEq, Eq)]
pub enum BruteText {
    /// What the encoding program must print.
    Printed(Vec<u8>),
    /// The register has more than 16 cells.
    TooManyCells,
    /// The longest windows up to the limit make no cutting of fewest seeds, or don't reach
    /// the longest start that refusal 8 counts, or aren't what their seeds deliver.
    RuleNotBest,
}

/// The encoding program's text, by brute force.
pub fn brute_text(input: &[u8]) -> BruteText {
    brute_list(input)
        .unwrap_or_else(|refused| BruteText::Printed(refusal_text(refused).into_bytes()))
}

fn brute_list(input: &[u8]) -> Result<BruteText, Refused> {
    let sheet = Sheet::read(input)?;
    let stop = stop_slice(sheet.head.masks.len() as u64, &sheet.spec, &sheet.bits)?;
    let Some(found) = brute_sheet(&sheet, stop) else {
        return Ok(BruteText::TooManyCells);
    };
    let found = found?;
    let delivered = delivered(&sheet, stop, &found.seeds);
    if !found.rule_is_best(sheet.spec.len()) || delivered != Some(found.reached) {
        return Ok(BruteText::RuleNotBest);
    }
    if found.fewest.is_none() {
        return refuse(8, found.longest_start as u64);
    }
    let text = sheet.list(stop.0, stop.1, &found.seeds);
    Ok(BruteText::Printed(text.into_bytes()))
}

/// What the brute force finds of the set on a sheet.
fn brute_sheet(sheet: &Sheet, stop: (u64, u64)) -> Option<Result<BruteSet, Refused>> {
    let head = &sheet.head;
    brute_set(
        head.cells,
        head.taps,
        head.limit(),
        head.invert(),
        &head.masks,
        stop.0,
        stop.1,
        &sheet.spec,
        &sheet.bits,
    )
}

/// The slices that the seeds deliver, each in a window of 1 to `limit` slices that it covers
/// and that begins where the last one ended. None if a seed covers no such window. A state
/// closes windows of one length only; the last seed has the window that ends the set if it
/// covers that one. So there is nothing to choose.
fn delivered(sheet: &Sheet, stop: (u64, u64), seeds: &[u64]) -> Option<usize> {
    let head = &sheet.head;
    let (cells, taps, limit, invert) = (head.cells, head.taps, head.limit(), head.invert());
    let all = sheet.spec.len();
    let covered = |start: usize, end: usize, seed: u64, closes: bool| {
        let (spec, bits) = (&sheet.spec[start..end], &sheet.bits[start..end]);
        let masks = &head.masks;
        covers(
            cells, taps, limit, invert, masks, stop.0, stop.1, spec, bits, seed, closes,
        )
    };
    let mut start = 0;
    for (place, &seed) in seeds.iter().enumerate() {
        let last = place + 1 == seeds.len();
        if last && covered(start, all, seed, false) {
            return Some(all);
        }
        let mut ends = (start + 1..=all).take(limit as usize);
        start = ends.find(|&end| covered(start, end, seed, true))?;
    }
    Some(start)
}
