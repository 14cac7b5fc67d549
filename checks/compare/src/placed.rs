// Texts with a line of a later request in its place, between the chain lines and depth or stop: where the line stands elsewhere, where the text ends with it, and where lines before it are refused.

use crate::bench::{LIST, SHEET};
use crate::call::refused;
use crate::known::{self, Known};
use crate::text::{Program, Text};
use second::Refused;

/// The line of the sheet and of the list that a window line or an invert line stands before.
pub const PLACE: usize = 6;

/// Document 01's sheet or list.
pub fn whole(program: Program) -> &'static str {
    match program {
        Program::Encode => SHEET,
        Program::Expand => LIST,
    }
}

/// The text with more before a line.
pub fn put(text: &[u8], line: usize, more: &[u8]) -> Vec<u8> {
    let mut lines: Vec<&[u8]> = text.split_inclusive(|&byte| byte == b'\n').collect();
    lines.insert(line - 1, more);
    lines.concat()
}

/// A text with lines in that place, and its refusal.
pub fn refused_lines(program: Program, lines: &[u8], number: u64, at: usize) -> Known {
    let bytes = put(whole(program).as_bytes(), PLACE, lines);
    (Text::new(program, bytes), refused(number, at))
}

/// Lines anywhere but in their place; also where the first of them stands in its place.
pub fn out_of_place(program: Program, lines: &[&str]) -> Vec<Known> {
    let text = whole(program).as_bytes();
    let last = text.split_inclusive(|&byte| byte == b'\n').count();
    let own = put(text, PLACE, lines[0].as_bytes());
    let mut known = Vec::new();
    for (text, last) in [(text, last + 1), (&own[..], last + 2)] {
        for place in (1..=last).filter(|&place| place != PLACE) {
            for line in lines {
                let bytes = put(text, place, line.as_bytes());
                known.push((Text::new(program, bytes), refused(13, place)));
            }
        }
    }
    known
}

/// Changes of the lines before that place that are refused there.
const BEFORE: [(usize, &[u8], u64, usize); 8] = [
    (1, b"cells=65\n", 1, 1),
    (2, b"taps=3\n", 1, 2),
    (2, b"taps=06\n", 13, 2),
    (3, b"chains=65\n", 2, 3),
    (3, b"chains=1\n", 13, 5),
    (3, b"chains=3\n", 13, 6),
    (4, b"chain=0\n", 2, 4),
    (5, b"chain=8\n", 2, 5),
];

/// Changes of the lines before a line that is refused by a number where it is reached, and no change.
pub fn before(program: Program, own: &[u8], number: u64) -> Vec<Known> {
    let none: (usize, &[u8], u64, usize) = (5, b"chain=4\n", number, PLACE);
    let mut known = Vec::new();
    for (line, new, number, at) in BEFORE.into_iter().chain([none]) {
        let bytes = known::with(whole(program), &[(line, new)]);
        let bytes = put(&bytes, PLACE, own);
        known.push((Text::new(program, bytes), refused(number, at)));
    }
    known
}

/// Texts that end in that place, with their refusals.
pub fn ended(program: Program, ends: &[(&str, u64, usize)]) -> Vec<Known> {
    let head = whole(program).split_inclusive('\n').take(PLACE - 1);
    let head: String = head.collect();
    let text = |end: &str| Text::new(program, format!("{head}{end}").into_bytes());
    let known = |&(end, number, at): &(&str, u64, usize)| (text(end), refused(number, at));
    ends.iter().map(known).collect()
}

/// The refusal of a text that gets a line in this place: of a line behind it, one line later.
pub fn later(answer: Result<(), Refused>) -> Result<(), Refused> {
    answer.map_err(|mut refused| {
        if matches!(refused.number, 1 | 2 | 3 | 5 | 13) && refused.value >= PLACE as u64 {
            refused.value += 1;
        }
        refused
    })
}
