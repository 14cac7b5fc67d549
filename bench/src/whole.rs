// The whole run: all sections, the plots, and the file.

use crate::bars;
use crate::case::Ask;
use crate::columns::Column;
use crate::degenerate_section;
use crate::fewest;
use crate::last_section;
use crate::limits_plots;
use crate::limits_section;
use crate::measure::Limits;
use crate::plots;
use crate::report::Report;
use crate::row::{Plan, SHORT};
use crate::sets_section::{self, SetRow};
use crate::stops_section;
use crate::svg::Plot;
use crate::table::digits;
use crate::windows_section;
use std::path::Path;
use std::time::Instant;

/// How long a short call is repeated, in seconds.
const LEAST: f64 = 0.2;
const ROUNDS: usize = 3;

fn plan(ask: Ask, limit: f64) -> Plan {
    Plan {
        columns: Column::here(ask),
        limits: Limits {
            limit,
            least: LEAST,
        },
        rounds: ROUNDS,
    }
}

/// The machine's processor, as Linux names it.
fn processor() -> String {
    let told = std::fs::read_to_string("/proc/cpuinfo").unwrap_or_default();
    let line = told.lines().find(|line| line.starts_with("model name"));
    let name = line.and_then(|line| line.split(": ").nth(1));
    name.unwrap_or("a processor without a name").to_string()
}

fn opening(report: &mut Report, limit: f64) {
    let cores = std::thread::available_parallelism().map_or(1, |cores| cores.get());
    report.line("# Benchmarks");
    report.paragraph("What `bench` printed in one run: the proved library beside other programs, on the same sets and windows. Columns:");
    report.line("");
    report.line("- ours: the proved library (`seeds_encode_set`, `seeds_window`, `seeds_stop`);");
    report.line("- fast: the same algorithm in Rust, without proofs, with every acceleration and each window searched once (`bench/src/fast.rs`);");
    report.line("- marked: the stop slice by the same rule in Rust, without proofs, with a list of the slices still in (`bench/src/marked.rs`), in the section on stop slices only;");
    report.line("- second: the second program, whose search is its author's own;");
    report.line("- enumeration: the states that satisfy the equations, tried in rising order (`bench/src/enumeration.rs`);");
    report.line("- SAT: cryptominisat5, on single windows, where it is installed;");
    report.line("- first version: the library of an earlier commit, where FIRST_VERSION names a benchmark program that links it; before R-5 a library closed the window that ends a set too, so of its list only the seeds before our last are compared.");
    report.paragraph(&format!("Times are CPU seconds of one call, each measured in a process of its own that is stopped after {limit} s. After one call that is not counted, a short call is repeated until {LEAST} s have passed. The columns of a row are measured by turns; of times below {SHORT} s the least of {ROUNDS} rounds is given. All columns are exact: those that end have the same seeds, stop slices and refusals, or the run fails."));
    report.paragraph(&format!("Processor: {}; {cores} cores.", processor()));
}

fn write(path: &Path, text: &str) -> Result<(), String> {
    std::fs::write(path, text).map_err(|e| format!("{} is not written: {e}", path.display()))
}

fn draw(folder: &Path, plots: &[(&str, Plot)]) -> Result<(), String> {
    let each = |(name, plot): &(&str, Plot)| write(&folder.join(name), &plot.svg());
    plots.iter().try_for_each(each)
}

pub fn run(limit: f64, folder: &str) -> Result<(), String> {
    let begun = Instant::now();
    let mut report = Report::new();
    opening(&mut report, limit);
    let sets = sets_section::section(&mut report, &plan(Ask::Set, limit))?;
    last_section::section(&mut report, &plan(Ask::Set, limit))?;
    let windows = windows_section::section(&mut report, &plan(Ask::Window, limit))?;
    degenerate(&mut report, limit)?;
    let stops = stops_section::section(&mut report, &plan(Ask::Stop, limit))?;
    let limits = limits_section::section(&mut report, &plan(Ask::Set, limit))?;
    fewest::section(&mut report, &sets);
    let folder = Path::new(folder);
    report.paragraph("## Plots");
    let drawn = [
        plots::of_windows(&windows),
        plots::of_sets(&sets),
        plots::of_stops(&stops),
        limits_plots::all(&limits),
    ];
    let drawn: Vec<_> = drawn.into_iter().flatten().collect();
    for (name, plot) in &drawn {
        report.paragraph(&format!("![{}]({name})", plot.title));
    }
    draw(folder, &drawn)?;
    bars::section(&mut report, &sets, &windows);
    let minutes = digits(begun.elapsed().as_secs_f64() / 60.0);
    report.paragraph(&format!("The run took {minutes} minutes."));
    write(&folder.join("benchmarks.md"), report.text())
}

/// The section on sets with those that are computed from its rows.
fn sets(report: &mut Report, limit: f64) -> Result<Vec<SetRow>, String> {
    let rows = sets_section::section(report, &plan(Ask::Set, limit))?;
    fewest::section(report, &rows);
    bars::section(report, &rows, &[]);
    Ok(rows)
}

/// The section on degenerate registers: its windows, then its sets.
fn degenerate(report: &mut Report, limit: f64) -> Result<(), String> {
    degenerate_section::windows(report, &plan(Ask::Window, limit))?;
    degenerate_section::sets(report, &plan(Ask::Set, limit))
}

/// The section on sets, on stop slices or on window limits alone, printed, with its plots.
pub fn drawn_part(name: &str, limit: f64, folder: &str) -> Result<(), String> {
    let report = &mut Report::new();
    let drawn = match name {
        "sets" => plots::of_sets(&sets(report, limit)?),
        "stops" => plots::of_stops(&stops_section::section(report, &plan(Ask::Stop, limit))?),
        "limits" => limits_plots::all(&limits_section::section(report, &plan(Ask::Set, limit))?),
        _ => {
            return Err(format!(
                "{name} has no plots of its own: sets, stops or limits"
            ))
        }
    };
    draw(Path::new(folder), &drawn)
}

/// One section alone, printed and not written.
pub fn part(name: &str, limit: f64) -> Result<(), String> {
    let report = &mut Report::new();
    match name {
        "sets" => {
            sets(report, limit)?;
        }
        "last" => last_section::section(report, &plan(Ask::Set, limit))?,
        "windows" => {
            let windows = windows_section::section(report, &plan(Ask::Window, limit))?;
            bars::section(report, &[], &windows);
        }
        "degenerate" => degenerate(report, limit)?,
        "stops" => {
            stops_section::section(report, &plan(Ask::Stop, limit))?;
        }
        "limits" => {
            limits_section::section(report, &plan(Ask::Set, limit))?;
        }
        _ => {
            return Err(format!(
                "{name} is no section: sets, last, windows, degenerate, stops or limits"
            ))
        }
    }
    Ok(())
}
