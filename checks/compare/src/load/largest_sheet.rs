// Sheets as large as can be, 64 cells, 64 chains and 2,048 slices, and their lists through both programs: time, bytes and memory.

use super::files::Files;
use super::found::Found;
use super::programs::Programs;
use super::running::{pipe_with_room, Running};
use crate::random::Random;
use crate::text::{refusal, Program, Text};
use std::time::Instant;

/// The sheet with x for all bits but so many in a hundred.
fn thinned(sheet: &Text, percent: u64) -> Text {
    let mut random = Random(53);
    let mut bytes = Vec::new();
    for line in sheet.bytes.split_inclusive(|&byte| byte == b'\n') {
        let slice = line.starts_with(b"slice=");
        bytes.extend(line.iter().map(|&byte| match byte {
            b'0' | b'1' if slice && random.below(100) >= percent => b'x',
            byte => byte,
        }));
    }
    Text::new(sheet.program, bytes)
}

/// The most resident memory of a program, read while it waits for a full pipe: all that is left to do is to write.
fn resident(programs: &Programs, files: &Files, text: &Text) -> Result<String, String> {
    let (_reader, writer) = pipe_with_room(0)?;
    let (program, input) = (programs.of(text.program), files.holding(text)?);
    let running = Running::start(program, &[], input.into(), writer.into())?;
    running.sleeps()?;
    running.most_resident()
}

/// One text: seconds, bytes and memory.
fn timed(programs: &Programs, files: &Files, text: &Text) -> Result<(Vec<u8>, String), String> {
    let known = text.told().printed;
    let start = Instant::now();
    programs.judge(text, &known)?;
    let seconds = start.elapsed().as_secs_f64();
    let most = resident(programs, files, text)?;
    let figures = format!(
        "{}: {seconds:.3} s, {} bytes in, {} bytes out, at most {most} resident",
        text.program.name(),
        text.bytes.len(),
        known.len()
    );
    Ok((known, figures))
}

/// Largest sheets with all bits, one in ten and none, each with its list.
pub fn answers(programs: &Programs, files: &Files) -> Result<Found, String> {
    let mut found = Found::default();
    let sheet = &files.of(Program::Encode).text;
    for percent in [100, 10, 0] {
        let (list, encoded) = timed(programs, files, &thinned(sheet, percent))?;
        if refusal(&list).is_some() {
            return Err(format!("the sheet with {percent} % is refused"));
        }
        let list = Text::new(Program::Expand, list);
        let (_, expanded) = timed(programs, files, &list)?;
        found.compared += 2;
        found.say(format!("{percent} % of the bits specified:"));
        found.say(encoded);
        found.say(expanded);
    }
    Ok(found)
}
