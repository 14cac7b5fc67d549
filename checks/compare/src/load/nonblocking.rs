// Input and output that fail instead of waiting (O_NONBLOCK), as a parent process may hand them on: a program tries a million times, and then takes the input as ended or gives the output up.

use super::files::Files;
use super::found::Found;
use super::programs::{Programs, BOTH};
use super::running::{all_of, Running};
use crate::bench::{LIST, SHEET};
use crate::report::same;
use crate::text::{shown, Program, Text};
use std::io::{ErrorKind, Write};
use std::os::fd::OwnedFd;
use std::os::unix::net::UnixStream;
use std::process::Stdio;

/// Our end, and the program's end, which does not wait.
fn ends() -> Result<(UnixStream, UnixStream), String> {
    let pair = || {
        let (ours, theirs) = UnixStream::pair()?;
        theirs.set_nonblocking(true)?;
        Ok((ours, theirs))
    };
    pair().map_err(|why: std::io::Error| why.to_string())
}

/// The program's end as its input or output.
fn handed(end: UnixStream) -> Stdio {
    Stdio::from(OwnedFd::from(end))
}

/// The first lines of document 01's sheet or list: two slices of four, or one seed of two.
fn part(program: Program) -> Text {
    let whole = match program {
        Program::Encode => SHEET,
        Program::Expand => LIST,
    };
    let lines: String = whole.split_inclusive('\n').take(8).collect();
    Text::new(program, lines.into_bytes())
}

/// A part of a text comes, then nothing, and the input stays open: the part is judged as it stands.
pub fn inputs(programs: &Programs) -> Result<Found, String> {
    let mut found = Found::default();
    for program in BOTH {
        let text = part(program);
        let (mut ours, theirs) = ends()?;
        ours.write_all(&text.bytes).map_err(|why| why.to_string())?;
        let (reader, writer) = std::io::pipe().map_err(|why| why.to_string())?;
        let path = programs.of(program);
        let mut running = Running::start(path, &[], handed(theirs), writer.into())?;
        let printed = all_of(reader)?;
        let ended = running.wait()?;
        ended.by_itself()?;
        let (printed, known) = (shown(&printed), shown(&text.told().printed));
        same("what is printed", &printed, &known)?;
        found.compared += 2;
        found.say(format!(
            "{}, {} bytes come: {printed} printed, {}",
            program.name(),
            text.bytes.len(),
            ended.shown()
        ));
    }
    Ok(found)
}

/// Writes until nothing more is taken: how many bytes are held then.
fn fill(mut end: &UnixStream) -> Result<usize, String> {
    let mut held = 0;
    loop {
        match end.write(&[b'-'; 4_096]) {
            Ok(count) => held += count,
            Err(why) if why.kind() == ErrorKind::WouldBlock => return Ok(held),
            Err(why) => return Err(why.to_string()),
        }
    }
}

/// Nobody reads: the answer is lost, and the program ends.
pub fn outputs(programs: &Programs, files: &Files) -> Result<Found, String> {
    let mut found = Found::default();
    for largest in files.both() {
        let program = largest.text.program;
        let (ours, theirs) = ends()?;
        let held = fill(&theirs)?;
        let (path, input) = (programs.of(program), largest.open()?);
        let mut running = Running::start(path, &[], input.into(), handed(theirs))?;
        let ended = running.wait()?;
        ended.by_itself()?;
        same("bytes in all", all_of(ours)?.len(), held)?;
        found.compared += 2;
        found.say(format!(
            "{}, nobody reads: 0 of {} bytes written, {}",
            program.name(),
            largest.known.len(),
            ended.shown()
        ));
    }
    Ok(found)
}
