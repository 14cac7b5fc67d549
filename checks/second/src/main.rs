// Holds the program: encode, expand, brute and figure2, by its first argument.
// Follows document 01, "Sheet and seed list", and document 004, figure 2.

use second::{slice_of, slice_text, BruteText};
use std::io::{Read, Write};
use std::process::ExitCode;

/// The slices of document 004's figure 2, as document 01 gives them.
const FIGURE_2: [&str; 6] = [
    "x001x10x11",
    "10xx0010xx",
    "xx10xx01x1",
    "x1xxxx110x",
    "01x11xx110",
    "x0xxxxxxxx",
];

fn main() -> ExitCode {
    let job = std::env::args().nth(1).unwrap_or_default();
    let done = match job.as_str() {
        "encode" => read().and_then(|input| print(&second::encode_text(&input))),
        "expand" => read().and_then(|input| print(&second::expand_text(&input))),
        "brute" => read().and_then(|input| brute(&input)),
        "figure2" => print(figure2().as_bytes()),
        _ => {
            eprintln!("usage: second encode|expand|brute|figure2");
            Ok(ExitCode::from(2))
        }
    };
    done.unwrap_or_else(|error| {
        eprintln!("{error}");
        ExitCode::from(1)
    })
}

fn read() -> std::io::Result<Vec<u8>> {
    let mut input = Vec::new();
    std::io::stdin().lock().read_to_end(&mut input)?;
    Ok(input)
}

fn print(text: &[u8]) -> std::io::Result<ExitCode> {
    let mut out = std::io::stdout().lock();
    out.write_all(text)?;
    out.flush()?;
    Ok(ExitCode::SUCCESS)
}

fn brute(input: &[u8]) -> std::io::Result<ExitCode> {
    match second::brute_text(input) {
        BruteText::Printed(text) => print(&text),
        BruteText::TooManyCells => {
            eprintln!("brute force takes at most 16 cells");
            Ok(ExitCode::from(2))
        }
        BruteText::RuleNotBest => {
            eprintln!("the longest windows are not a cutting of fewest seeds");
            Ok(ExitCode::from(3))
        }
    }
}

/// The numbers of a list with spaces between them.
fn row(numbers: impl Iterator<Item = u64>) -> String {
    numbers
        .map(|number| number.to_string())
        .collect::<Vec<_>>()
        .join(" ")
}

/// The run of the stop slice steps on figure 2. Positions and slices are numbered from 1.
fn figure2() -> String {
    let chains = FIGURE_2[0].len();
    let slices = FIGURE_2
        .iter()
        .filter_map(|text| slice_of(text.as_bytes(), chains));
    let (spec, bits): (Vec<u64>, Vec<u64>) = slices.unzip();
    let trace = match second::stop_trace(chains as u64, &spec, &bits) {
        Ok(trace) => trace,
        Err(refused) => return second::refusal_text(refused),
    };
    let mut text = String::new();
    for (place, iteration) in trace.iterations.iter().enumerate() {
        text.push_str(&format!("iteration {}\n", place + 1));
        text.push_str(&format!("0s {}\n", row(iteration.zeros.iter().copied())));
        text.push_str(&format!("1s {}\n", row(iteration.ones.iter().copied())));
        text.push_str(&format!(
            "position {} bit {}\n",
            iteration.position, iteration.bit
        ));
        let removed = row(iteration.removed.iter().map(|&slice| slice as u64 + 1));
        text.push_str(&format!("removed {removed}\n"));
    }
    text.push_str(&format!(
        "stop {}\n",
        slice_text(chains, trace.stop_spec, trace.stop_bits)
    ));
    text
}
