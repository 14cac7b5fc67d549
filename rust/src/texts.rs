// The text calls: a sheet to its seed list, a seed list to its slice lines. Document 01, "Sheet and seed list".

use crate::raw::TextAnswer;
use crate::{entries, Refusal, LONGEST_OUTPUT};

/// An accepted text: the bytes written, and how many seeds or slices they say.
#[derive(Clone, Copy, Debug, PartialEq, Eq)]
pub struct Written {
    pub bytes: usize,
    pub entries: usize,
}

/// A text call's answer.
fn written(told: TextAnswer) -> Result<Written, Refusal> {
    let TextAnswer {
        number,
        value,
        entries,
    } = told;
    match number {
        0 => Ok(Written {
            bytes: value,
            entries,
        }),
        _ => Err(Refusal {
            number,
            value,
            entries,
        }),
    }
}

/// The seed list of a sheet, written into `out`. The limit of a window is the number of the sheet's line `window=`, or 256 where it has no such line; the inverted chains are those of its line `invert=`, or none. The first refused line, then the checks over the whole, then 9 with the bytes needed and the number of seeds.
pub fn encode_text(sheet: &[u8], out: &mut [u8]) -> Result<Written, Refusal> {
    written(entries::encode_text(sheet, out))
}

/// The slice lines of a seed list, written into `out`. Refused in the same order.
pub fn expand_text(list: &[u8], out: &mut [u8]) -> Result<Written, Refusal> {
    written(entries::expand_text(list, out))
}

/// The text that a call writes into a buffer that is always long enough.
fn whole(call: impl FnOnce(&mut [u8]) -> Result<Written, Refusal>) -> Result<Vec<u8>, Refusal> {
    let mut out = vec![0; LONGEST_OUTPUT];
    let written = call(&mut out)?;
    out.truncate(written.bytes);
    Ok(out)
}

/// The seed list of a sheet.
pub fn encode_sheet(sheet: &[u8]) -> Result<Vec<u8>, Refusal> {
    whole(|out| encode_text(sheet, out))
}

/// The slice lines of a seed list.
pub fn expand_list(list: &[u8]) -> Result<Vec<u8>, Refusal> {
    whole(|out| expand_text(list, out))
}
