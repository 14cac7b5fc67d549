// The largest sheet and list, texts of hundreds of thousands and of millions of bytes, and texts as long as buffers often are.

use crate::bench::{LIST, SHEET};
use crate::call::{Call, DEFAULT_LIMIT};
use crate::inputs::fill;
use crate::random::Random;
use crate::sheets::{limited, list, sheet};
use crate::text::{Program, Text};

/// Bytes of the largest lawful sheet: 64 cells and chains, an invert and a window line, 2,048 slices, every number as long as can be.
const LARGEST_SHEET: usize = 146_966;
/// Bytes of the largest lawful list.
const LARGEST_LIST: usize = 46_686;
/// Bytes of the longest text that is printed: 2,048 slices of 64 chains.
const LARGEST_SLICES: usize = 145_408;

/// Bytes of a slice line for 64 chains.
const SLICE_LINE: usize = 71;

const TOP: u64 = 1 << 63;

/// A call of so many chains and slices for 64 cells, its last chain inverted and others too. Its seeds have cell 63 set, their slice has a 1 for the first chain and the slice after it a 0; the test slices are theirs, whole.
/// The stop slice steps set the first position to 0, so each seed delivers its slice and no more.
fn one_by_one(random: &mut Random, chains: usize, count: usize) -> Call {
    let taps = random.word() | TOP;
    let masks: Vec<u64> = (0..chains).map(|_| random.word() | TOP).collect();
    let invert = random.bits(chains) | 1 << (chains - 1);
    let slice = |state| second::slice(&masks, invert, state);
    let mut seeds = Vec::new();
    while seeds.len() < count {
        let state = random.word() | TOP;
        if slice(state) & 1 == 1 && slice(second::step(64, taps, state)) & 1 == 0 {
            seeds.push(state);
        }
    }
    let slices = seeds.iter().map(|&state| slice(state)).collect();
    Call {
        cells: 64,
        taps,
        limit: DEFAULT_LIMIT,
        invert,
        stop: (1, 0),
        depth: 256,
        specified: vec![u64::MAX >> (64 - chains); count],
        bits: slices,
        slices: count,
        masks,
        seeds,
    }
}

/// The largest sheet that is accepted, and its list. Only where the masks are independent does each slice name its state.
fn accepted(random: &mut Random) -> Result<(Vec<u8>, Vec<u8>), String> {
    for _ in 0..100 {
        let call = one_by_one(random, 64, 2_048);
        let with_line = |lines| limited(lines, 256).concat();
        let (sheet, list) = (with_line(sheet(&call)), with_line(list(&call)));
        if second::encode_text(&sheet) != list {
            continue;
        }
        let printed = second::expand_text(&list);
        let lengths = (sheet.len(), list.len(), printed.len());
        if lengths != (LARGEST_SHEET, LARGEST_LIST, LARGEST_SLICES) {
            return Err(format!("the largest texts have {lengths:?} bytes"));
        }
        return Ok((sheet, list));
    }
    Err("no largest sheet is accepted".into())
}

/// A text with more behind it: a part of a line, a whole line, or lines as the last one, so many bytes long.
fn longer(text: &Text, more: usize) -> Vec<Text> {
    let last = text
        .bytes
        .split_inclusive(|&byte| byte == b'\n')
        .next_back();
    let line = [&vec![b'x'; more - 1][..], b"\n"].concat();
    let lines = last.unwrap_or(b"\n").iter().copied().cycle().take(more);
    [vec![b'x'; more], line, lines.collect()]
        .iter()
        .map(|tail| Text::new(text.program, [&text.bytes[..], tail].concat()))
        .collect()
}

/// The largest sheet and list; the same with their last bytes missing, with bytes behind, and with a byte changed near the end.
pub fn largest(random: &mut Random) -> Result<Vec<Text>, String> {
    let (sheet, list) = accepted(random)?;
    let mut texts = Vec::new();
    for (program, bytes) in [(Program::Encode, sheet), (Program::Expand, list)] {
        let text = Text::new(program, bytes);
        for more in [1, 80, 81, 82, 10_000] {
            texts.extend(longer(&text, more));
        }
        for fewer in [1, 2, 22, 71] {
            let end = text.bytes.len() - fewer;
            texts.push(Text::new(program, text.bytes[..end].to_vec()));
        }
        let mut turned = text.clone();
        let place = turned.bytes.len() - 2;
        turned.bytes[place] ^= 1;
        texts.extend([text, turned]);
    }
    Ok(texts)
}

/// So many bytes of one kind, behind a text.
fn filled(start: &str, filling: &[u8], size: usize) -> Vec<u8> {
    let filling = filling.iter().copied().cycle();
    start.bytes().chain(filling.take(size)).collect()
}

/// Texts of `size` bytes and more: a whole text with much behind it, one endless line, and many lines.
pub fn huge(size: usize) -> Vec<Text> {
    let mut texts = Vec::new();
    for (program, start, entry) in [
        (Program::Encode, SHEET, "slice=1x\n"),
        (Program::Expand, LIST, "seed=3\n"),
    ] {
        let endless: [&[u8]; 4] = [b"x", b"\0", b"\n", b"cells=3\n"];
        for filling in endless {
            texts.push(Text::new(program, filled(start, filling, size)));
            texts.push(Text::new(program, filled("", filling, size)));
        }
        texts.push(Text::new(program, filled(start, entry.as_bytes(), size)));
        texts.push(Text::new(program, filled("cells=", b"1", size)));
        texts.push(Text::new(program, filled("cells=3\ntaps=", b"0", size)));
        let mut ended = filled(&format!("{start}{}", &entry[..6]), b"1", size);
        ended.push(b'\n');
        texts.push(Text::new(program, ended));
    }
    texts
}

/// A list of `size` bytes in form: the first seeds have 16 digits, the last two as many as are left.
fn sized_list(size: usize) -> Text {
    let head = "cells=64\ntaps=8000000000000000\nchains=1\nchain=1\nstop=1\nslices=2048\n";
    let seed = |bytes: usize| format!("seed={}\n", "f".repeat(bytes - 6));
    let mut text = head.to_string();
    while size - text.len() > 44 {
        text += &seed(22);
    }
    let left = size - text.len();
    text += &(seed(left / 2) + &seed(left - left / 2));
    Text::new(Program::Expand, text.into_bytes())
}

/// A sheet of `size` bytes in form: the first masks have fewer digits, as many as it takes.
fn sized_sheet(random: &mut Random, size: usize) -> Text {
    let mut call = Call {
        depth: 1,
        ..one_by_one(random, 64, 0)
    };
    let head = sheet(&call).concat().len();
    let count = (size - head).div_ceil(SLICE_LINE);
    fill(random, &mut call, count, 100);
    let mut fewer = head + SLICE_LINE * count - size;
    for mask in &mut call.masks {
        let digits = fewer.min(15);
        *mask >>= 4 * digits;
        fewer -= digits;
    }
    Text::new(Program::Encode, sheet(&call).concat())
}

/// A text, if it has so many bytes.
fn of_size(text: Text, size: usize) -> Result<Text, String> {
    match text.bytes.len() {
        length if length == size => Ok(text),
        length => Err(format!("a text of {size} bytes came to {length}")),
    }
}

/// Texts as long as buffers often are, one byte shorter and one longer; and lists of which just so much is printed.
pub fn sized(random: &mut Random) -> Result<Vec<Text>, String> {
    let mut texts = Vec::new();
    for power in 8..=17 {
        let middle = 1 << power;
        for size in [middle - 1, middle, middle + 1] {
            if size < 40_000 {
                texts.push(of_size(sized_list(size), size)?);
            }
            if size > 2_000 {
                texts.push(of_size(sized_sheet(random, size), size)?);
            }
        }
        // a slice line of 57 chains has 64 bytes
        let call = one_by_one(random, 57, middle / 64);
        texts.push(Text::new(Program::Expand, list(&call).concat()));
    }
    Ok(texts)
}
