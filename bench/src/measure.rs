// Runs measurements, each in a process of its own, and reads what they print.

use crate::answer::Answer;
use crate::columns::{first_program, Column};
use crate::one::STOPPED;
use std::io::Write;
use std::process::{Command, Stdio};

/// How a column did on a case.
#[derive(Clone, Copy, Debug, PartialEq)]
pub enum Time {
    /// CPU seconds of one call.
    Took(f64),
    /// Stopped after this many.
    Stopped(f64),
    /// Not measured, since an easier row was stopped.
    Left,
}

impl Time {
    pub fn seconds(self) -> Option<f64> {
        match self {
            Time::Took(seconds) => Some(seconds),
            _ => None,
        }
    }
}

/// The limit of a measurement, and how long a short call is repeated, in seconds of CPU time.
#[derive(Clone, Copy)]
pub struct Limits {
    pub limit: f64,
    pub least: f64,
}

/// What a measurement printed.
pub struct Measured {
    pub time: Time,
    pub answer: Option<Answer>,
    /// The SAT solver's time until it was known whether there is a seed.
    pub decided: Option<f64>,
}

impl Measured {
    /// A measurement that was stopped prints at most when it was decided.
    fn stopped(limit: f64, text: &str) -> Measured {
        Measured {
            time: Time::Stopped(limit),
            answer: None,
            decided: text.trim().parse().ok(),
        }
    }

    fn read(text: &str) -> Option<Measured> {
        let mut lines = text.lines();
        Some(Measured {
            time: Time::Took(lines.next()?.parse().ok()?),
            answer: Some(Answer::read(lines.next()?)?),
            decided: lines.next().and_then(|line| line.parse().ok()),
        })
    }
}

/// The program and the name of the column in it.
fn program(column: Column) -> Result<(std::ffi::OsString, Column), String> {
    match (column, first_program()) {
        (Column::First, Some(program)) => Ok((program, Column::Ours)),
        _ => {
            let here = std::env::current_exe().map_err(|e| e.to_string())?;
            Ok((here.into_os_string(), column))
        }
    }
}

/// Runs one measurement on the text of a case.
pub fn measure(column: Column, text: &str, limits: Limits) -> Result<Measured, String> {
    let (program, named) = program(column)?;
    let mut child = Command::new(program)
        .args(["one", named.name()])
        .args([limits.limit.to_string(), limits.least.to_string()])
        .stdin(Stdio::piped())
        .stdout(Stdio::piped())
        .spawn()
        .map_err(|e| format!("the column {} does not start: {e}", column.name()))?;
    let mut pipe = child.stdin.take().ok_or("no standard input")?;
    pipe.write_all(text.as_bytes()).map_err(|e| e.to_string())?;
    drop(pipe);
    let done = child.wait_with_output().map_err(|e| e.to_string())?;
    let told = String::from_utf8_lossy(&done.stdout);
    if done.status.code() == Some(STOPPED.into()) {
        return Ok(Measured::stopped(limits.limit, &told));
    }
    match Measured::read(&told) {
        Some(measured) if done.status.success() => Ok(measured),
        _ => Err(format!(
            "a measurement of the column {} fails: {} {told}",
            column.name(),
            done.status
        )),
    }
}
