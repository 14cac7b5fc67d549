// Texts that are cut off after each byte, each in a process of its own.

use super::found::{Counts, Found};
use super::programs::Programs;
use crate::bench::{LIST, SHEET};
use crate::random::Random;
use crate::sheets;
use crate::text::{refusal, Program, Text};

/// Every proper start of a text: what the program prints for it, which is what the second program prints.
fn starts(programs: &Programs, text: &Text) -> Result<Vec<Vec<u8>>, String> {
    let mut printed = Vec::new();
    for end in 0..text.bytes.len() {
        let start = Text::new(text.program, text.bytes[..end].to_vec());
        let known = start.told().printed;
        programs.judge(&start, &known)?;
        printed.push(known);
    }
    Ok(printed)
}

/// How many slice lines a text has.
fn slices(text: &[u8]) -> usize {
    let lines = text.split_inclusive(|&byte| byte == b'\n');
    lines.filter(|line| line.starts_with(b"slice=")).count()
}

/// Document 01's sheet and list; the sheet's starts that are accepted are named.
pub fn inputs(programs: &Programs) -> Result<Found, String> {
    let mut found = Found::default();
    for (program, whole) in [(Program::Encode, SHEET), (Program::Expand, LIST)] {
        let text = Text::new(program, whole.into());
        let printed = starts(programs, &text)?;
        found.compared += printed.len();
        let counts = Counts::of(&printed).shown();
        found.say(format!(
            "{}, 0 to {} bytes: {counts}",
            program.name(),
            printed.len() - 1
        ));
        for (end, printed) in printed.iter().enumerate() {
            if refusal(printed).is_none() {
                let (left, all) = (slices(&text.bytes[..end]), slices(&text.bytes));
                found.say(format!(
                    "accepted: the first {end} bytes, {left} of {all} slices"
                ));
            }
        }
    }
    Ok(found)
}

/// An accepted sheet's list of more than a thousand bytes.
fn long_list() -> Text {
    let mut random = Random(54);
    loop {
        let sheet = sheets::any(&mut random, Program::Encode).concat();
        let list = second::encode_text(&sheet);
        if (1_000..2_000).contains(&list.len()) && refusal(&list).is_none() {
            return Text::new(Program::Expand, list);
        }
    }
}

/// No proper start of an accepted list is accepted.
pub fn lists(programs: &Programs) -> Result<Found, String> {
    let mut found = Found::default();
    for list in [Text::new(Program::Expand, LIST.into()), long_list()] {
        let printed = starts(programs, &list)?;
        if let Some(end) = printed.iter().position(|text| refusal(text).is_none()) {
            return Err(format!(
                "the first {end} bytes are accepted, {}",
                list.shown()
            ));
        }
        found.compared += 2 * printed.len();
        let counts = Counts::of(&printed).shown();
        found.say(format!("a list of {} bytes: {counts}", list.bytes.len()));
    }
    Ok(found)
}
