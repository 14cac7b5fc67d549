// Holds what the tests of the text have in common: document 01's sheet and list, the making
// of sheets, and the two programs' answers.

use super::cores::Core;
use second::*;

/// The lines of a core up to the last chain; its inverted chains are left to the caller.
pub fn head(core: &Core) -> String {
    let mut text = format!(
        "cells={}\ntaps={:x}\nchains={}\n",
        core.cells,
        core.taps,
        core.masks.len()
    );
    for mask in &core.masks {
        text.push_str(&format!("chain={mask:x}\n"));
    }
    text
}

/// The slice lines of a set.
pub fn slice_lines(chains: usize, spec: &[u64], bits: &[u64]) -> String {
    let slices = spec.iter().zip(bits);
    slices
        .map(|(&places, &values)| format!("slice={}\n", slice_text(chains, places, values)))
        .collect()
}

/// The encoding program's text, which is the brute force's too.
pub fn encoded(text: &str) -> String {
    let list = encode_text(text.as_bytes());
    assert_eq!(
        brute_text(text.as_bytes()),
        BruteText::Printed(list.clone())
    );
    String::from_utf8(list).unwrap()
}

pub fn expanded(text: &str) -> String {
    String::from_utf8(expand_text(text.as_bytes())).unwrap()
}

pub fn refusal(number: u64, at: usize) -> String {
    format!("refused={number}\nat={at}\n")
}

/// Document 01's sheet and list, in which an added line stands in line 6, and the slices.
pub const SHEET: &str = "cells=3\ntaps=6\nchains=2\nchain=1\nchain=4\ndepth=2\n\
                     slice=10\nslice=x1\nslice=1x\nslice=1x\n";
pub const LIST: &str = "cells=3\ntaps=6\nchains=2\nchain=1\nchain=4\nstop=0x\nslices=4\n\
                    seed=3\nseed=3\n";
pub const SLICES: &str = "slice=10\nslice=11\nslice=10\nslice=11\n";

/// The text with more before its line, counted from 1.
pub fn put(text: &str, line: usize, more: &str) -> String {
    let mut lines: Vec<&str> = text.split_inclusive('\n').collect();
    lines.insert(line - 1, more);
    lines.concat()
}
