// Holds the sheet of test slices and the encoding program's text.
// Follows document 01, "Sheet and seed list", and document 02, R-3 (the window line)
// and R-4 (the invert line).

use crate::check::{check_cubes, check_depth};
use crate::encode::encode_cubes;
use crate::lines::{read_slices, refusal_text, slice_text, Head, Lines};
use crate::Refused;

/// A sheet in form, with every line in its range.
pub struct Sheet {
    pub head: Head,
    pub depth: u64,
    pub spec: Vec<u64>,
    pub bits: Vec<u64>,
}

impl Sheet {
    /// Reads a sheet; the number of its slices is tested too.
    pub fn read(input: &[u8]) -> Result<Sheet, Refused> {
        let mut lines = Lines::new(input);
        let head = Head::read(&mut lines)?;
        let depth = lines.decimal(b"depth=")?;
        lines.in_range(check_depth(depth))?;
        let (spec, bits) = read_slices(&mut lines, head.masks.len())?;
        check_cubes(depth, spec.len() as u64)?;
        Ok(Sheet {
            head,
            depth,
            spec,
            bits,
        })
    }

    /// The seed list of this sheet with a stop slice and seeds.
    pub fn list(&self, stop_spec: u64, stop_bits: u64, seeds: &[u64]) -> String {
        let mut text = String::new();
        self.head.print(&mut text);
        let stop = slice_text(self.head.masks.len(), stop_spec, stop_bits);
        text.push_str(&format!("stop={stop}\n"));
        text.push_str(&format!("slices={}\n", self.spec.len()));
        for seed in seeds {
            text.push_str(&format!("seed={seed:x}\n"));
        }
        text
    }
}

/// The seed list of the sheet in `input`.
fn encoded(input: &[u8]) -> Result<String, Refused> {
    let sheet = Sheet::read(input)?;
    let mut out = vec![0; sheet.spec.len()];
    let (stop_spec, stop_bits, count) = encode_cubes(
        sheet.head.cells,
        sheet.head.taps,
        sheet.head.limit(),
        sheet.head.invert(),
        &sheet.head.masks,
        sheet.depth,
        &sheet.spec,
        &sheet.bits,
        &mut out,
    )?;
    Ok(sheet.list(stop_spec, stop_bits, &out[..count]))
}

/// What the encoding program prints for its standard input.
pub fn encode_text(input: &[u8]) -> Vec<u8> {
    encoded(input).unwrap_or_else(refusal_text).into_bytes()
}
