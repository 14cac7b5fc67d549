// Holds the seed list and the expanding program's text.
// Follows document 01, "Sheet and seed list", and document 02, R-3 (the window line)
// and R-4 (the invert line).

use crate::check::{check_slice_count, check_stop};
use crate::expand::expand;
use crate::lines::{read_seeds, refusal_text, slice_of, slice_text, Head, Lines};
use crate::register::low_bits;
use crate::Refused;

/// A seed list in form, with every line in its range.
struct List {
    head: Head,
    stop_spec: u64,
    stop_bits: u64,
    total: u64,
    seeds: Vec<u64>,
}

impl List {
    fn read(input: &[u8]) -> Result<List, Refused> {
        let mut lines = Lines::new(input);
        let head = Head::read(&mut lines)?;
        let chains = head.masks.len();
        let value = lines.value(b"stop=")?;
        let (stop_spec, stop_bits) = lines.formed(slice_of(value, chains))?;
        lines.in_range(check_stop(chains as u64, stop_spec, stop_bits))?;
        let total = lines.decimal(b"slices=")?;
        lines.in_range(check_slice_count(total))?;
        let seeds = read_seeds(&mut lines)?;
        Ok(List {
            head,
            stop_spec,
            stop_bits,
            total,
            seeds,
        })
    }
}

/// The slice lines of the list in `input`.
fn expanded(input: &[u8]) -> Result<String, Refused> {
    let list = List::read(input)?;
    let mut out = vec![0; list.total as usize];
    let count = expand(
        list.head.cells,
        list.head.taps,
        list.head.limit(),
        list.head.invert(),
        &list.head.masks,
        list.stop_spec,
        list.stop_bits,
        list.total,
        &list.seeds,
        &mut out,
    )?;
    let chains = list.head.masks.len();
    let mut text = String::new();
    for &bits in &out[..count] {
        let characters = slice_text(chains, low_bits(chains as u64), bits);
        text.push_str(&format!("slice={characters}\n"));
    }
    Ok(text)
}

/// What the expanding program prints for its standard input.
pub fn expand_text(input: &[u8]) -> Vec<u8> {
    expanded(input).unwrap_or_else(refusal_text).into_bytes()
}
