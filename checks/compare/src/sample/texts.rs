// Whole and damaged texts: what the second program prints.

use super::calls::Given;
use super::table::Table;
use crate::call::{Call, DEFAULT_LIMIT};
use crate::inputs::{lawful, thin};
use crate::random::Random;

/// The lines before depth or stop.
fn head(call: &Call, given: Given) -> Vec<String> {
    let mut lines = vec![
        format!("cells={}", call.cells),
        format!("taps={:x}", call.taps),
        format!("chains={}", call.masks.len()),
    ];
    lines.extend(call.masks.iter().map(|mask| format!("chain={mask:x}")));
    if given == Given::Inverts {
        lines.push(format!("invert={:x}", call.invert));
    }
    if given == Given::Limits || call.limit != DEFAULT_LIMIT {
        lines.push(format!("window={}", call.limit));
    }
    lines
}

/// The lines of a sheet.
fn sheet(random: &mut Random, call: &Call, given: Given) -> Vec<String> {
    let chains = call.masks.len();
    let mut lines = head(call, given);
    let depth = if random.one_in(8) {
        random.between(0, 300)
    } else {
        call.depth
    };
    lines.push(format!("depth={depth}"));
    for (specified, bits) in call.specified.iter().zip(&call.bits) {
        lines.push(format!(
            "slice={}",
            second::slice_text(chains, *specified, *bits)
        ));
    }
    lines
}

/// The lines of a seed list.
fn seed_list(random: &mut Random, call: &Call, given: Given) -> Vec<String> {
    let mut lines = head(call, given);
    let (specified, bits) = call.stop;
    lines.push(format!(
        "stop={}",
        second::slice_text(call.masks.len(), specified, bits)
    ));
    lines.push(format!("slices={}", random.between(0, 12)));
    lines.extend(call.seeds.iter().map(|seed| format!("seed={seed:x}")));
    lines
}

/// A text of these lines, whole or with a line or a byte damaged.
fn text(random: &mut Random, mut lines: Vec<String>) -> String {
    let place = random.below(lines.len() as u64) as usize;
    match random.below(8) {
        0 => drop(lines.remove(place)),
        1 => lines.insert(place, lines[place].clone()),
        2 => lines.truncate(place),
        _ => {}
    }
    let mut text: Vec<u8> = lines
        .iter()
        .flat_map(|line| line.bytes().chain([b'\n']))
        .collect();
    if !text.is_empty() && random.one_in(3) {
        let place = random.below(text.len() as u64) as usize;
        let bytes = b"0123456789abcdefxgF=\n -";
        match random.below(3) {
            0 => drop(text.remove(place)),
            1 => text.insert(place, bytes[random.below(bytes.len() as u64) as usize]),
            _ => text[place] = bytes[random.below(bytes.len() as u64) as usize],
        }
    }
    String::from_utf8(text).expect("the bytes are ASCII")
}

fn quoted(text: &str) -> String {
    format!("bytes \"{}\"", text.replace('\n', "\\n"))
}

pub fn texts(random: &mut Random, given: Given, count: usize) -> Table {
    let rows = (0..count).map(|place| {
        let mut call = lawful(random, 5, 3, 6);
        given.set(random, &mut call);
        if random.one_in(2) {
            thin(random, &mut call);
        }
        let (word, lines) = if place % 2 == 0 {
            ("encode_text", sheet(random, &call, given))
        } else if place % 4 == 1 {
            ("expand_text", seed_list(random, &call, given))
        } else {
            let input = sheet(random, &call, given).join("\n") + "\n";
            let printed = second::encode_text(input.as_bytes());
            let printed = String::from_utf8(printed).expect("printed text is ASCII");
            ("expand_text", printed.lines().map(String::from).collect())
        };
        let input = text(random, lines);
        let printed = match word {
            "encode_text" => second::encode_text(input.as_bytes()),
            _ => second::expand_text(input.as_bytes()),
        };
        let printed = String::from_utf8(printed).expect("printed text is ASCII");
        (format!("{word} ({})", quoted(&input)), quoted(&printed))
    });
    Table {
        name: given.name("texts"),
        kind: "List ℕ",
        rows: rows.collect(),
    }
}
