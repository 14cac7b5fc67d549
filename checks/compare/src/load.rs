// The load test, `compare load N`: N sheets one after another and two at a time, the largest sheet, input and output that are cut off, closed, full or without end. docs/load.md says what each does.
// ENCODE_PROGRAM and EXPAND_PROGRAM name the two programs. Times and sizes are printed and never judged; a program that has not ended after a limit fails its case.

mod closed;
mod cut;
mod disk;
mod endless;
mod files;
mod found;
mod largest_sheet;
mod many;
mod nonblocking;
mod programs;
mod running;

use crate::report::Report;
use files::Files;
use found::Found;
use many::Many;
use programs::Programs;
use std::process::ExitCode;

/// Prints a case and its figures below it.
fn case(report: &mut Report, name: &str, outcome: Result<Found, String>) {
    match outcome {
        Ok(found) => {
            report.case(&format!("load: {name}"), Ok(found.compared));
            for line in found.figures {
                println!("     {line}");
            }
        }
        Err(why) => report.case(&format!("load: {name}"), Err(why)),
    }
}

/// Sheets one after another and two at a time, and the largest.
fn sheets(report: &mut Report, programs: &Programs, files: &Files, count: usize) {
    let many = Many::new(count);
    case(report, "one after another", many.through(programs, 1));
    case(report, "two at a time", many.through(programs, 2));
    let largest = largest_sheet::answers(programs, files);
    case(report, "the largest sheet", largest);
}

/// Inputs and outputs that fail.
fn failures(report: &mut Report, programs: &Programs, files: &Files) {
    case(report, "input cut off", cut::inputs(programs));
    case(report, "lists cut off", cut::lists(programs));
    case(report, "a closed pipe", closed::pipes(programs, files));
    let closed = closed::files(programs, files);
    case(report, "closed input and output", closed);
    case(report, "a full disk", disk::full(programs, files));
    let limited = disk::limited(programs, files);
    case(report, "a disk that gets full", limited);
    case(report, "input without end", endless::inputs(programs));
    let input = nonblocking::inputs(programs);
    case(report, "input that does not wait", input);
    let output = nonblocking::outputs(programs, files);
    case(report, "output that does not wait", output);
}

fn all(report: &mut Report, count: usize) -> Result<(), String> {
    let programs = Programs::find()?;
    let files = Files::new()?;
    sheets(report, &programs, &files, count);
    failures(report, &programs, &files);
    Ok(())
}

/// `compare load N`.
pub fn run(count: &str) -> ExitCode {
    let Ok(count) = count.parse() else {
        println!("{count} is no number of sheets");
        return ExitCode::FAILURE;
    };
    let mut report = Report::new();
    if let Err(why) = all(&mut report, count) {
        report.case("load", Err(why));
    }
    match report.end() {
        true => ExitCode::SUCCESS,
        false => ExitCode::FAILURE,
    }
}
