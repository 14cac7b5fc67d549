// Input without end: a program answers once its buffer is full, and leaves the rest.

use super::found::Found;
use super::programs::{Programs, BOTH};
use super::running::{all_of, in_time, Running};
use crate::bench::{LIST, SHEET};
use crate::report::same;
use crate::text::{shown, Program, Text};
use std::fs::File;
use std::io::{PipeWriter, Write};
use std::process::Stdio;

/// Bytes that are offered.
const OFFERED: usize = 50_000_000;

/// So many first bytes of it are handed to the second program, which reads all that it is given.
const ENOUGH: usize = 1_000_000;

/// Bytes that are offered at a time.
const BLOCK: usize = 4_096;

/// Feeds these bytes, or as many as are taken: how many were taken.
fn feed(mut pipe: PipeWriter, bytes: &[u8]) -> usize {
    let mut taken = 0;
    for block in bytes.chunks(BLOCK) {
        if pipe.write_all(block).is_err() {
            break;
        }
        taken += block.len();
    }
    taken
}

/// Inputs for a program: what each is, its start, and what follows again and again.
fn inputs_of(program: Program) -> [(&'static str, &'static str, &'static str); 4] {
    let (whole, entry) = match program {
        Program::Encode => (SHEET, "slice=xx\n"),
        Program::Expand => (LIST, "seed=3\n"),
    };
    [
        ("a line out of order", "", "slice=xx\n"),
        ("lines behind a whole text", whole, entry),
        ("one line", "cells=", "1"),
        ("empty lines", "", "\n"),
    ]
}

/// What a program prints for an input.
fn printed(programs: &Programs, program: Program, input: Stdio) -> Result<Vec<u8>, String> {
    let (reader, writer) = std::io::pipe().map_err(|why| why.to_string())?;
    let mut running = Running::start(programs.of(program), &[], input, writer.into())?;
    let printed = all_of(reader)?;
    running.wait()?.by_itself()?;
    Ok(printed)
}

/// What a program prints for so many bytes, and how many of them were taken.
fn offered(
    programs: &Programs,
    program: Program,
    bytes: Vec<u8>,
) -> Result<(Vec<u8>, usize), String> {
    let (reader, writer) = std::io::pipe().map_err(|why| why.to_string())?;
    let feeding = std::thread::spawn(move || feed(writer, &bytes));
    let printed = printed(programs, program, reader.into())?;
    let taken = in_time(move || feeding.join())?;
    Ok((printed, taken.map_err(|_| "feeding failed")?))
}

/// Both programs; what they print is what the second program prints for the first bytes.
pub fn inputs(programs: &Programs) -> Result<Found, String> {
    let mut found = Found::default();
    for program in BOTH {
        for (what, start, more) in inputs_of(program) {
            let more = more.bytes().cycle();
            let bytes: Vec<u8> = start.bytes().chain(more).take(OFFERED).collect();
            let known = Text::new(program, bytes[..ENOUGH].to_vec()).told().printed;
            let (printed, taken) = offered(programs, program, bytes)?;
            same("what is printed", shown(&printed), shown(&known))?;
            same("all bytes are taken", taken == OFFERED, false)?;
            found.compared += 2;
            let (name, printed) = (program.name(), shown(&printed));
            found.say(format!(
                "{name}, {what}: {printed} printed, {taken} bytes taken"
            ));
        }
        let zeros = File::open("/dev/zero").map_err(|why| why.to_string())?;
        let known = Text::new(program, vec![0; ENOUGH]).told().printed;
        let printed = printed(programs, program, zeros.into())?;
        same("what is printed", shown(&printed), shown(&known))?;
        found.compared += 1;
        let (name, printed) = (program.name(), shown(&printed));
        found.say(format!("{name}, /dev/zero: {printed} printed"));
    }
    Ok(found)
}
