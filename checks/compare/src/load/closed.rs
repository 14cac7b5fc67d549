// A closed pipe behind a program, and inputs and outputs that are closed or can't be read.

use super::files::{Files, Largest};
use super::found::Found;
use super::programs::Programs;
use super::running::{all_of, pipe_with_room, Ended, Running};
use crate::report::same;
use crate::text::{shown, Text};

/// Bytes that the pipe has room for.
const ROOM: usize = 4_096;

/// Lines of the shell: the signal of a write that nobody will read is as by default, or is ignored.
const DEFAULT: &str = r#"exec "$0" < "$1""#;
const IGNORED: &str = r#"trap "" PIPE; exec "$0" < "$1""#;

/// The pipe is closed before the program starts.
fn closed_before(line: &str, programs: &Programs, largest: &Largest) -> Result<Ended, String> {
    let (reader, writer) = std::io::pipe().map_err(|why| why.to_string())?;
    drop(reader);
    Running::shell(line, &programs.words(largest), writer.into())?.wait()
}

/// The pipe is closed when it is full and the program waits to write more.
fn closed_within(line: &str, programs: &Programs, largest: &Largest) -> Result<Ended, String> {
    let (reader, writer) = pipe_with_room(ROOM)?;
    let mut running = Running::shell(line, &programs.words(largest), writer.into())?;
    running.sleeps()?;
    drop(reader);
    running.wait()
}

/// Both programs on the largest text: each ends by itself, for a program of the toolchain ignores the signal.
pub fn pipes(programs: &Programs, files: &Files) -> Result<Found, String> {
    let mut found = Found::default();
    for largest in files.both() {
        for (line, signal) in [(DEFAULT, "default"), (IGNORED, "ignored")] {
            let before = closed_before(line, programs, largest)?;
            let within = closed_within(line, programs, largest)?;
            for (ended, taken) in [(before, 0), (within, ROOM)] {
                ended.by_itself()?;
                found.compared += 1;
                found.say(format!(
                    "{}, closed after {taken} of {} bytes, SIGPIPE {signal}: {}",
                    largest.text.program.name(),
                    largest.known.len(),
                    ended.shown()
                ));
            }
        }
    }
    Ok(found)
}

/// What is done to input and output: the line of the shell, its name, and whether an answer arrives.
const FILES: [(&str, &str, bool); 3] = [
    (r#"exec "$0" <&-"#, "input closed", true),
    (r#"exec "$0" < /"#, "input is a folder", true),
    (r#"exec "$0" < "$1" >&-"#, "output closed", false),
];

/// Where nothing can be read the text is empty; where nothing can be written the answer is lost.
pub fn files(programs: &Programs, files: &Files) -> Result<Found, String> {
    let mut found = Found::default();
    for largest in files.both() {
        let program = largest.text.program;
        for (line, what, arrives) in FILES {
            let (reader, writer) = std::io::pipe().map_err(|why| why.to_string())?;
            let mut running = Running::shell(line, &programs.words(largest), writer.into())?;
            let printed = all_of(reader)?;
            let ended = running.wait()?;
            ended.by_itself()?;
            let empty = Text::new(program, Vec::new()).told().printed;
            let known = if arrives { &empty[..] } else { b"" };
            same("what is printed", shown(&printed), shown(known))?;
            found.compared += 2;
            found.say(format!(
                "{}, {what}: {} printed, {}",
                program.name(),
                shown(&printed),
                ended.shown()
            ));
        }
    }
    Ok(found)
}
