// The frames program: the most stack that each entry of the compiled library needs, worked out from its machine code.
//     frames LIBRARY HEADER
// LIBRARY is crates/seeds/out/libseeds.a, HEADER is c/seeds.h, whose SEEDS_STACK must be enough for each entry, and SEEDS_STACK_STOP for seeds_stop.
// It prints a line for each entry, with the frames that are on the stack at the deepest place, and ends with `N passed, M failed`.
// A bound for an entry that the library does not have is an error. What it does not understand it refuses: an indirect call, another change of the stack pointer, code that no way leads to, a function that is nowhere.

mod disassembly;
mod effect;
mod flow;
mod graph;
mod header;
mod instruction;
mod library;
mod probe;
mod stated;
mod tables;

use flow::RETURN;
use graph::{Graph, Step, Way};
use header::{Header, ENTRY};
use library::Library;
use std::process::ExitCode;

/// The deepest way of each entry, in the order of the library.
fn entries(file: &str) -> Result<Vec<(String, Way)>, String> {
    let library = Library::read(file)?;
    let mut frames = Vec::new();
    for function in &library.functions {
        frames.push((function.name.clone(), flow::frame(&library, function)?));
    }
    let graph = Graph(frames.into_iter().collect());
    let names = library.functions.iter().map(|function| &function.name);
    let names = names.filter(|name| name.starts_with(ENTRY));
    let ways: Result<Vec<(String, Way)>, String> = names
        .map(|name| Ok((name.clone(), graph.deepest(name)?)))
        .collect();
    match ways {
        Ok(ways) if ways.is_empty() => Err(format!("{file} has no entry")),
        ways => ways,
    }
}

fn shown(step: &Step) -> String {
    match step.times {
        1 => format!("{} {}", step.name, step.bytes),
        times => format!("{times} x {} {}", step.name, step.bytes),
    }
}

/// Prints a line for each entry; how many passed and failed.
fn tell(ways: &[(String, Way)], header: &Header) -> (usize, usize) {
    let mut failed = 0;
    for (name, way) in ways {
        let bound = header.bound(name);
        let bytes = way.bytes + RETURN.unsigned_abs();
        let steps: Vec<String> = way.steps.iter().map(shown).collect();
        let word = if bytes <= bound { "pass" } else { "FAIL" };
        failed += usize::from(bytes > bound);
        println!(
            "{word} {name}: {bytes} of {bound} bytes: {}",
            steps.join(", ")
        );
    }
    (ways.len() - failed, failed)
}

/// The entries of a library against a header; how many passed and failed.
fn check(library: &str, header: &str) -> Result<(usize, usize), String> {
    let ways = entries(library)?;
    let stated = Header::read(header)?;
    let names: Vec<&str> = ways.iter().map(|(name, _)| name.as_str()).collect();
    match stated.missing(&names) {
        Some(name) => Err(format!(
            "{header} has a bound for {name}, which is no entry"
        )),
        None => Ok(tell(&ways, &stated)),
    }
}

fn main() -> ExitCode {
    let words: Vec<String> = std::env::args().skip(1).collect();
    let [library, header] = &words[..] else {
        println!("frames LIBRARY HEADER");
        return ExitCode::FAILURE;
    };
    let (passed, failed) = check(library, header).unwrap_or_else(|why| {
        println!("FAIL {why}");
        (0, 1)
    });
    println!("{passed} passed, {failed} failed");
    match failed {
        0 => ExitCode::SUCCESS,
        _ => ExitCode::FAILURE,
    }
}
