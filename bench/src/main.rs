// The benchmark program: the proved library beside other programs and a SAT solver, on the same sets and windows in one run.
// `bench [SECONDS] [FOLDER]` prints the tables and writes FOLDER/benchmarks.md with its plots; SECONDS limits the CPU time of each measurement.
// `bench part NAME SECONDS` prints one section (sets, last, windows, degenerate, stops or limits) and writes nothing; `bench part NAME SECONDS FOLDER`, for sets, stops or limits, also writes the section's plots.
// FIRST_VERSION may name the benchmark program of an earlier commit, built with SEEDS_LIBRARY: the folder of the static library that rust/build.rs links.
// `bench quick` runs a few small rows, writes nothing and ends with `N passed, M failed`.
// It is built with the workspace's profile `measured`; a build that checks for overflow measures nothing.

mod answer;
mod bars;
mod case;
mod clock;
mod columns;
mod degenerate;
mod degenerate_section;
mod enumeration;
mod fast;
mod fewest;
mod last_section;
mod library;
mod limits;
mod limits_plots;
mod limits_section;
mod limits_summary;
mod marked;
mod measure;
mod one;
mod plots;
mod published;
mod quick;
#[allow(dead_code)]
#[path = "../../checks/compare/src/random.rs"]
mod random;
mod report;
mod row;
mod sat;
mod sets;
mod sets_section;
mod solver;
mod space;
mod stops;
mod stops_section;
mod svg;
mod table;
mod whole;
mod windows;
mod windows_section;

use std::hint::black_box;
use std::panic::catch_unwind;
use std::process::ExitCode;

/// Whether this build checks for overflow, as the workspace's profile `release` does: its times would be other ones.
fn checks_overflow() -> bool {
    catch_unwind(|| black_box(u8::MAX) + black_box(1)).is_err()
}

/// The whole run into a folder, or one section; a wrong limit or an error ends it.
fn measured(limit: &str, run: impl Fn(f64) -> Result<(), String>) -> ExitCode {
    let done = match limit.parse::<f64>() {
        _ if checks_overflow() => Err(
            "this build checks for overflow; cargo run --profile measured -p bench does not"
                .to_string(),
        ),
        Ok(limit) if limit >= 1.0 => run(limit),
        _ => Err(
            "bench [SECONDS] [FOLDER], at least 1 second; bench part NAME SECONDS [FOLDER]; or bench quick"
                .to_string(),
        ),
    };
    match done {
        Ok(()) => ExitCode::SUCCESS,
        Err(why) => {
            println!("{why}");
            ExitCode::FAILURE
        }
    }
}

fn main() -> ExitCode {
    let words: Vec<String> = std::env::args().skip(1).collect();
    let words: Vec<&str> = words.iter().map(String::as_str).collect();
    match words[..] {
        ["one", column, limit, least] => one::run(column, limit, least),
        ["quick"] => quick::run(),
        ["part", name, limit] => measured(limit, |limit| whole::part(name, limit)),
        ["part", name, limit, folder] => {
            measured(limit, |limit| whole::drawn_part(name, limit, folder))
        }
        [] => measured("10", |limit| whole::run(limit, "docs")),
        [limit] => measured(limit, |limit| whole::run(limit, "docs")),
        [limit, folder] => measured(limit, |limit| whole::run(limit, folder)),
        _ => measured("", |_| Ok(())),
    }
}
