// A full disk: no byte can be written, or only the first ones.

use super::files::{Files, Largest};
use super::found::Found;
use super::programs::Programs;
use super::running::{Ended, Running};
use crate::report::same;
use crate::text::{refusal, shown, Program, Text};
use std::fs;
use std::process::Stdio;

/// The signal of a write beyond the limit of a file.
const BEYOND_LIMIT: i32 = 25;

/// Bytes of a file at the limit that the lines below set.
const LIMIT: usize = 1_024;

/// Lines of the shell: to a device that is always full; to a file that can't grow beyond the limit, where the signal ends the program; and the same where it is ignored.
const FULL: &str = r#"exec "$0" < "$1" > /dev/full"#;
const SIGNALLED: &str = r#"ulimit -c 0 -f 1; exec env --default-signal=XFSZ "$0" < "$1" > "$2""#;
const IGNORED: &str = r#"trap "" XFSZ; ulimit -f 1; exec "$0" < "$1" > "$2""#;

/// A program on the largest text, its output in a file.
fn written(
    line: &str,
    programs: &Programs,
    files: &Files,
    largest: &Largest,
) -> Result<Ended, String> {
    let output = files.output();
    let [program, input] = programs.words(largest);
    let words = [program, input, output.as_os_str()];
    Running::shell(line, &words, Stdio::null())?.wait()
}

/// A disk that takes no byte: the answer is lost, and the program ends.
pub fn full(programs: &Programs, files: &Files) -> Result<Found, String> {
    let mut found = Found::default();
    for largest in files.both() {
        let ended = written(FULL, programs, files, largest)?;
        ended.by_itself()?;
        found.compared += 1;
        let name = largest.text.program.name();
        found.say(format!("{name}: {}", ended.shown()));
    }
    Ok(found)
}

/// The bytes that a program left in its file.
fn left(files: &Files) -> Result<Vec<u8>, String> {
    fs::read(files.output()).map_err(|why| why.to_string())
}

/// A disk that takes the first bytes: they are the first of the answer, and no more.
fn first_bytes(
    programs: &Programs,
    files: &Files,
    largest: &Largest,
    found: &mut Found,
) -> Result<(), String> {
    for (line, signal) in [(SIGNALLED, "default"), (IGNORED, "ignored")] {
        let ended = written(line, programs, files, largest)?;
        match line == SIGNALLED {
            true => ended.by_signal(BEYOND_LIMIT)?,
            false => ended.by_itself()?,
        }
        let left = left(files)?;
        same("what is left", shown(&left), shown(&largest.known[..LIMIT]))?;
        found.compared += 2;
        found.say(format!(
            "{}, SIGXFSZ {signal}: {} of {} bytes written, {}",
            largest.text.program.name(),
            left.len(),
            largest.known.len(),
            ended.shown()
        ));
    }
    Ok(())
}

/// A list that is cut so is refused.
pub fn limited(programs: &Programs, files: &Files) -> Result<Found, String> {
    let mut found = Found::default();
    first_bytes(programs, files, files.of(Program::Expand), &mut found)?;
    first_bytes(programs, files, files.of(Program::Encode), &mut found)?;
    let list = Text::new(Program::Expand, left(files)?);
    let printed = programs.answer(&list)?;
    match refusal(&printed) {
        Some(refused) if matches!(refused.number, 13 | 14) => {}
        _ => return Err(format!("{} for {}", shown(&printed), list.shown())),
    }
    found.compared += 1;
    let printed = shown(&printed);
    found.say(format!("expand of that cut list: {printed} printed"));
    Ok(found)
}
