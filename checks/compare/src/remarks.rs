// What was met in texts, as names that a case can require.

use crate::seen::Seen;
use crate::text::{Program, Text, Told};
use crate::values::KEYS;
use second::Refused;

/// The key that a line from 1 has; what else stands there.
fn key_at(text: &[u8], at: u64) -> String {
    let mut lines = text.split_inclusive(|&byte| byte == b'\n');
    let Some(line) = lines.nth(at as usize - 1) else {
        return "the end".into();
    };
    match KEYS.iter().find(|key| line.starts_with(key)) {
        Some(key) => String::from_utf8_lossy(key).into_owned(),
        None => "another line".into(),
    }
}

/// The answer in a word or two; of a refused line its key.
fn named(text: &Text, told: &Told) -> String {
    let Err(Refused { number, value }) = told.answer else {
        return "accepted".into();
    };
    let at_line = matches!(number, 1 | 2 | 5 | 13) || number == 3 && value > 0;
    match at_line {
        true => format!("{number} at {}", key_at(&text.bytes, value)),
        false => format!("{number}"),
    }
}

/// Notes the answer, and whether the text has a window line and an invert line.
pub fn note(text: &Text, told: &Told, seen: &mut Seen) {
    let (program, answer) = (text.program.name(), named(text, told));
    seen.note(&format!("{program}, {answer}"));
    for (key, line) in [("window=", "a window line"), ("invert=", "an invert line")] {
        let mut lines = text.bytes.split_inclusive(|&byte| byte == b'\n');
        if lines.any(|line| line.starts_with(key.as_bytes())) {
            seen.note(&format!("{program}, {answer} with {line}"));
        }
    }
}

/// What must be met in sheets.
const SHEETS: [&str; 33] = [
    "accepted",
    "accepted with a window line",
    "accepted with an invert line",
    "1 at cells=",
    "1 at taps=",
    "2 at chains=",
    "2 at chain=",
    "2 at invert=",
    "3",
    "3 at window=",
    "3 at depth=",
    "3 at slice=",
    "6",
    "6 with a window line",
    "6 with an invert line",
    "8",
    "8 with a window line",
    "8 with an invert line",
    "13 at cells=",
    "13 at taps=",
    "13 at chains=",
    "13 at chain=",
    "13 at invert=",
    "13 at window=",
    "13 at window= with an invert line",
    "13 at depth=",
    "13 at depth= with a window line",
    "13 at depth= with an invert line",
    "13 at slice=",
    "13 at stop=",
    "13 at seed=",
    "13 at another line",
    "13 at the end",
];

/// What must be met in lists.
const LISTS: [&str; 36] = [
    "accepted",
    "accepted with a window line",
    "accepted with an invert line",
    "1 at cells=",
    "1 at taps=",
    "2 at chains=",
    "2 at chain=",
    "2 at invert=",
    "3 at window=",
    "3 at slices=",
    "3 at seed=",
    "5 at stop=",
    "10",
    "11",
    "11 with a window line",
    "11 with an invert line",
    "12",
    "12 with a window line",
    "12 with an invert line",
    "13 at cells=",
    "13 at taps=",
    "13 at chains=",
    "13 at chain=",
    "13 at invert=",
    "13 at window=",
    "13 at window= with an invert line",
    "13 at stop=",
    "13 at slices=",
    "13 at seed=",
    "13 at slice=",
    "13 at depth=",
    "13 at another line",
    "13 at the end",
    "14",
    "14 with a window line",
    "14 with an invert line",
];

/// Fails unless each cause that a text can give was met, of a line with each key that can have it.
pub fn require_all(seen: &Seen) -> Result<(), String> {
    for (program, names) in [
        (Program::Encode, &SHEETS[..]),
        (Program::Expand, &LISTS[..]),
    ] {
        for name in names {
            seen.require(&[&format!("{}, {name}", program.name())])?;
        }
    }
    Ok(())
}
