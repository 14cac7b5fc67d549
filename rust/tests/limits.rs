// The limits of the wrapper and of c/seeds.h against the library's own source, and against each other.

mod common;

use common::file;

/// A limit: its name, the wrapper's number, and the crate that has it too.
struct Limit {
    name: &'static str,
    number: usize,
    from: &'static str,
}

/// All limits but those of the stack, which no source has.
fn limits() -> [Limit; 6] {
    let constant = |name, number, from| Limit { name, number, from };
    [
        constant("MOST_CELLS", seeds::MOST_CELLS, "machine_register"),
        constant("MOST_CHAINS", seeds::MOST_CHAINS, "machine_chains"),
        constant("LONGEST_WINDOW", seeds::LONGEST_WINDOW, "refusal_lengths"),
        constant("MOST_SLICES", seeds::MOST_SLICES, "refusal_lengths"),
        constant("LONGEST_INPUT", seeds::LONGEST_INPUT, "text_program"),
        constant("LONGEST_OUTPUT", seeds::LONGEST_OUTPUT, "text_program"),
    ]
}

/// The names of a limit in the library: the longest window is there the greatest limit and the greatest depth.
fn names(name: &str) -> Vec<&str> {
    match name {
        "LONGEST_WINDOW" => vec!["MOST_LIMIT", "MOST_DEPTH"],
        _ => vec![name],
    }
}

/// The number that follows a mark.
fn number(text: &str, mark: &str) -> Option<usize> {
    let (_, rest) = text.split_once(mark)?;
    let end = rest.find(|letter: char| !letter.is_ascii_digit());
    rest[..end.unwrap_or(rest.len())].parse().ok()
}

#[test]
fn the_library_has_the_limits() {
    for limit in limits() {
        let source = file(&format!("crates/{}/src/lib.rt", limit.from));
        for name in names(limit.name) {
            let mark = format!("pub const {name}: usize = ");
            assert_eq!(number(&source, &mark), Some(limit.number), "{name}");
        }
    }
}

#[test]
fn the_header_has_the_limits_and_no_other() {
    let header = file("c/seeds.h");
    let mut all: Vec<(&str, usize)> = limits().iter().map(|l| (l.name, l.number)).collect();
    all.push(("STACK", seeds::STACK));
    all.push(("STACK_STOP", seeds::STACK_STOP));
    for &(name, limit) in &all {
        let mark = format!("#define SEEDS_{name} ");
        assert_eq!(number(&header, &mark), Some(limit), "{name}");
    }
    let defined = header.split("#define SEEDS_").skip(1);
    let numbers = defined.filter(|rest| number(rest, " ").is_some());
    assert_eq!(numbers.count(), all.len());
}
