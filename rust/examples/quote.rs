// Quotes a sheet: reads it from standard input, prints its number of seeds and its seed list, and expands the list again.
// Then the same by numbers, for document 01's register R. It ends with status 1 where anything is refused.

use seeds::{
    encode_cubes, encode_text, expand, expand_text, Cause, Machine, Refusal, Settings, TestSlices,
    LONGEST_INPUT, LONGEST_OUTPUT,
};
use std::io::{self, Read, Write};
use std::process::ExitCode;

/// Numbers, each behind a space.
fn shown(numbers: &[u64]) -> String {
    numbers.iter().map(|number| format!(" {number}")).collect()
}

/// Encodes and expands a sheet, and answers with what is printed: its seeds counted, its list, the list's slices.
fn by_text(sheet: &[u8]) -> Result<Vec<u8>, Refusal> {
    let (mut list, mut lines) = (vec![0; LONGEST_OUTPUT], vec![0; LONGEST_OUTPUT]);
    let encoded = encode_text(sheet, &mut list)?;
    let list = &list[..encoded.bytes];
    let expanded = expand_text(list, &mut lines)?;
    let count = format!("{} seeds\n", encoded.entries);
    Ok([count.as_bytes(), list, &lines[..expanded.bytes]].concat())
}

/// Encodes document 01's set by numbers, 10, x1, 1x, 1x, where chain 1 is the lowest bit, and expands its seeds.
fn by_numbers() -> Result<Vec<u8>, Refusal> {
    let machine = Machine::new(Settings::new(3, 6), &[1, 4]);
    let set = TestSlices {
        specified: &[0b11, 0b10, 0b01, 0b01],
        bits: &[0b01, 0b10, 0b01, 0b01],
    };
    let mut seeds = [0; 4];
    let encoded = encode_cubes(machine, 2, set, &mut seeds)?;
    let seeds = &seeds[..encoded.seeds];
    let stop = encoded.stop;
    let mut slices = [0; 4];
    let total = expand(machine, stop, 4, seeds, &mut slices)?;
    let (specified, bits) = (stop.specified, stop.bits);
    let first = format!("stop {specified} {bits}, seeds{}\n", shown(seeds));
    Ok(format!("{first}{total} slices{}\n", shown(&slices[..total])).into_bytes())
}

/// Prints an answer or its refusal; whether it is accepted.
fn print(answer: Result<Vec<u8>, Refusal>) -> io::Result<bool> {
    match answer {
        Ok(text) => {
            io::stdout().write_all(&text)?;
            Ok(true)
        }
        Err(refusal) => {
            println!("{refusal}");
            if refusal.is(Cause::NoCutting) {
                let slices = refusal.value;
                println!("slices that can be cut, from the first on: {slices}");
            }
            Ok(false)
        }
    }
}

fn main() -> io::Result<ExitCode> {
    let mut sheet = Vec::new();
    let mut input = io::stdin().take(LONGEST_INPUT as u64);
    input.read_to_end(&mut sheet)?;
    let accepted = print(by_text(&sheet))? & print(by_numbers())?;
    Ok(match accepted {
        true => ExitCode::SUCCESS,
        false => ExitCode::FAILURE,
    })
}
