// The library's two entries for texts against the second program: the answer, every byte of the lent buffer, and the text itself.

use crate::bench::{LIST, SHEET};
use crate::damage::{self, any_text};
use crate::known::Known;
use crate::largest::{huge, largest, sized};
use crate::library::{encode_text, expand_text, TextAnswer};
use crate::placed::put;
use crate::random::Random;
use crate::remarks;
use crate::report::{same, Outcome};
use crate::tally::Tally;
use crate::text::{first_difference, Program, Text, Told};
use second::Refused;

/// How many random texts the gate tries; so many meet everything that is required.
pub const RANDOM_TEXTS: usize = 40_000;

/// Bytes on each side of a lent buffer that are no part of it.
const MARGIN: usize = 16;

/// The answer that a call with a buffer of `room` bytes must give. Cause 9 comes last.
fn expected(told: &Told, room: usize) -> TextAnswer {
    let needed = told.printed.len();
    let (number, value, entries) = match told.answer {
        Err(Refused { number, value }) => (number as usize, value as usize, 0),
        Ok(entries) if needed <= room => (0, needed, entries),
        Ok(entries) => (9, needed, entries),
    };
    TextAnswer {
        number,
        value,
        entries,
    }
}

/// The text, and behind it what would change its answer if it were read: a line feed where the last one is missing, and the last line again.
fn with_more(text: &[u8]) -> Vec<u8> {
    let mut all = text.to_vec();
    if !text.ends_with(b"\n") {
        all.push(b'\n');
    }
    let last = text.split_inclusive(|&byte| byte == b'\n').next_back();
    all.extend_from_slice(last.unwrap_or(b"cells=3\n"));
    all
}

/// One call with a buffer of `room` bytes.
fn call(random: &mut Random, text: &Text, input: &mut [u8], told: &Told, room: usize) -> Outcome {
    let lent: Vec<u8> = (0..room + 2 * MARGIN)
        .map(|_| random.word() as u8)
        .collect();
    let (mut left, mut right) = (lent.clone(), lent);
    let before = input.to_vec();
    let entry = match text.program {
        Program::Encode => encode_text,
        Program::Expand => expand_text,
    };
    let answer = entry(
        &mut input[..text.bytes.len()],
        &mut left[MARGIN..MARGIN + room],
    );
    let known = expected(told, room);
    if known.number == 0 {
        right[MARGIN..MARGIN + known.value].copy_from_slice(&told.printed);
    }
    same("the answer", answer, known)?;
    if left != right {
        let differ = first_difference(&left, &right);
        return Err(format!(
            "the buffer and {MARGIN} bytes on each side: {differ}"
        ));
    }
    same("the text is as it was", input == before, true)?;
    Ok(3)
}

/// How many bytes to lend: more than enough, just enough, one too few, half of them and none.
fn rooms(random: &mut Random, told: &Told) -> Vec<usize> {
    let needed = told.printed.len();
    let more = random.between(1, 300);
    match told.answer {
        Ok(_) => vec![needed + more, needed, needed - 1, needed / 2, 0],
        Err(_) => vec![more, 0],
    }
}

/// One text with each of these buffers.
pub fn compare(random: &mut Random, text: &Text, tally: &mut Tally) -> Result<(), String> {
    let told = text.told();
    remarks::note(text, &told, &mut tally.seen);
    let mut input = with_more(&text.bytes);
    let mut count = 0;
    for room in rooms(random, &told) {
        count += call(random, text, &mut input, &told, room)
            .map_err(|why| format!("{why}, {room} bytes lent to {}", text.shown()))?;
    }
    tally.add(Ok(count))
}

/// Texts whose answers are known.
pub fn known(texts: Vec<Known>) -> Result<Tally, String> {
    let mut random = Random(21);
    let mut tally = Tally::default();
    for (text, known) in texts {
        same("the second program", text.told().answer.map(|_| ()), known)
            .map_err(|why| format!("{why}, {}", text.shown()))?;
        compare(&mut random, &text, &mut tally)?;
    }
    Ok(tally)
}

/// Document 01's sheet and list, and the same with a window line and with both lines.
fn sheet_and_list() -> Vec<Text> {
    let mut texts = Vec::new();
    for (program, text) in [(Program::Encode, SHEET), (Program::Expand, LIST)] {
        texts.push(Text::new(program, text.into()));
        for lines in [&b"window=25\n"[..], b"invert=2\nwindow=25\n"] {
            texts.push(Text::new(program, put(text.as_bytes(), 6, lines)));
        }
    }
    texts
}

/// These, cut after each byte.
pub fn cuts() -> Vec<Text> {
    let mut texts = Vec::new();
    for text in sheet_and_list() {
        for end in 0..text.bytes.len() {
            texts.push(Text::new(text.program, text.bytes[..end].to_vec()));
        }
    }
    texts
}

/// A text with one byte dropped, with each byte in its place, and with each byte before it.
fn byte_changes(
    random: &mut Random,
    text: &Text,
    at: usize,
    tally: &mut Tally,
) -> Result<(), String> {
    let mut dropped = text.clone();
    dropped.bytes.remove(at);
    compare(random, &dropped, tally)?;
    for byte in 0..=255 {
        let mut changed = text.clone();
        changed.bytes[at] = byte;
        compare(random, &changed, tally)?;
        let mut longer = text.clone();
        longer.bytes.insert(at, byte);
        compare(random, &longer, tally)?;
    }
    Ok(())
}

/// Document 01's sheet and list, without more lines, with a window line and with an invert line before it, cut after each byte, and with each byte changed in every way.
pub fn byte_by_byte() -> Result<Tally, String> {
    let mut random = Random(22);
    let mut tally = Tally::default();
    for text in cuts() {
        compare(&mut random, &text, &mut tally)?;
    }
    for text in sheet_and_list() {
        for at in 0..text.bytes.len() {
            byte_changes(&mut random, &text, at, &mut tally)?;
        }
    }
    Ok(tally)
}

/// The largest texts, texts as long as buffers often are, and texts of hundreds of thousands and of millions of bytes.
pub fn large_texts(random: &mut Random) -> Result<Vec<Text>, String> {
    let mut texts = largest(random)?;
    texts.extend(sized(random)?);
    texts.extend(huge(300_000));
    texts.extend(huge(4_000_000));
    Ok(texts)
}

/// Large texts.
pub fn large() -> Result<Tally, String> {
    let mut random = Random(23);
    let mut tally = Tally::default();
    for text in large_texts(&mut random)? {
        compare(&mut random, &text, &mut tally)?;
    }
    Ok(tally)
}

/// Random texts, whole and damaged.
pub fn random(count: usize) -> Result<Tally, String> {
    let mut random = Random(24);
    let mut tally = Tally::default();
    for _ in 0..count {
        let text = any_text(&mut random, &mut tally.seen);
        compare(&mut random, &text, &mut tally)?;
    }
    if count >= RANDOM_TEXTS {
        damage::require_all(&tally.seen)?;
        remarks::require_all(&tally.seen)?;
    }
    Ok(tally)
}
