// Invert and window lines in every order: up to three of them behind the chain lines, lawful or not, and one of each anywhere. A sheet that is accepted is expanded back.

use crate::placed::{put, whole, PLACE};
use crate::programs::{compare_whole, Paths};
use crate::random::Random;
use crate::report::same;
use crate::tally::Tally;
use crate::text::{Program, Text};
use crate::texts::compare;
use crate::window_limit::texts::expands_back;
use second::Refused;

/// A line, and the number by which it is refused in its place, or 0.
type Line = (&'static str, u64);

/// Invert lines and window lines: two that are lawful, one out of range and one out of form.
const LINES: [Line; 8] = [
    ("invert=0\n", 0),
    ("invert=2\n", 0),
    ("invert=4\n", 2),
    ("invert=02\n", 13),
    ("window=256\n", 0),
    ("window=3\n", 0),
    ("window=0\n", 3),
    ("window=03\n", 13),
];

/// A text, and the refusal of a line; none where no line is refused.
type Judged = (Text, Option<Refused>);

/// Every row of so many of these lines.
fn rows(length: u32) -> Vec<Vec<Line>> {
    let row = |mut number: usize| {
        let mut lines = Vec::new();
        for _ in 0..length {
            lines.push(LINES[number % LINES.len()]);
            number /= LINES.len();
        }
        lines
    };
    (0..LINES.len().pow(length)).map(row).collect()
}

/// The refusal of a row: one invert line may come, then one window line; of those in their place, each is judged by itself.
fn judge(row: &[Line]) -> Option<Refused> {
    let (mut inverts, mut windows) = (0, 0);
    for (&(line, number), at) in row.iter().zip(PLACE as u64..) {
        let in_place = match line.starts_with("invert=") {
            true => inverts == 0 && windows == 0,
            false => windows == 0,
        };
        let number = if in_place { number } else { 13 };
        if number != 0 {
            return Some(Refused { number, value: at });
        }
        match line.starts_with("invert=") {
            true => inverts += 1,
            false => windows += 1,
        }
    }
    None
}

/// Rows of up to three lines behind the chain lines.
fn in_rows(program: Program) -> Vec<Judged> {
    let mut texts = Vec::new();
    for row in (0..=3).flat_map(rows) {
        let lines: String = row.iter().map(|(line, _)| *line).collect();
        let bytes = put(whole(program).as_bytes(), PLACE, lines.as_bytes());
        texts.push((Text::new(program, bytes), judge(&row)));
    }
    texts
}

/// The first line that may not follow the one before it; both texts have two chain lines.
fn out_of_order(text: &[u8]) -> Option<Refused> {
    let key = |line: &[u8]| line[..=line.iter().position(|&b| b == b'=').unwrap_or(0)].to_vec();
    let lines = text.split_inclusive(|&byte| byte == b'\n').map(key);
    let (mut before, mut chains) = (b"".to_vec(), 0);
    for (key, value) in lines.zip(1..) {
        let lawful: &[&[u8]] = match &before[..] {
            b"" => &[b"cells="],
            b"cells=" => &[b"taps="],
            b"taps=" => &[b"chains="],
            b"chains=" => &[b"chain="],
            b"chain=" if chains < 2 => &[b"chain="],
            b"chain=" => &[b"invert=", b"window=", b"depth=", b"stop="],
            b"invert=" => &[b"window=", b"depth=", b"stop="],
            b"window=" => &[b"depth=", b"stop="],
            b"depth=" | b"slice=" => &[b"slice="],
            b"stop=" => &[b"slices="],
            _ => &[b"seed="],
        };
        if !lawful.contains(&&key[..]) {
            return Some(Refused { number: 13, value });
        }
        chains += usize::from(key == b"chain=");
        before = key;
    }
    None
}

/// One invert line anywhere, and one window line anywhere.
fn anywhere(program: Program) -> Vec<Judged> {
    let text = whole(program).as_bytes();
    let last = text.split_inclusive(|&byte| byte == b'\n').count();
    let mut texts = Vec::new();
    for one in 1..=last + 1 {
        let inverted = put(text, one, b"invert=2\n");
        for other in 1..=last + 2 {
            let bytes = put(&inverted, other, b"window=3\n");
            let judged = out_of_order(&bytes);
            texts.push((Text::new(program, bytes), judged));
        }
    }
    texts
}

fn all() -> Vec<Judged> {
    let both = [Program::Encode, Program::Expand].into_iter();
    let texts = both.flat_map(|program| [in_rows(program), anywhere(program)].concat());
    texts.collect()
}

/// The second program's answer: the refusal of the line, or none of a line; and a list that repeats the lines and expands back.
fn told(text: &Text, judged: Option<Refused>, tally: &mut Tally) -> Result<(), String> {
    let told = text.told();
    if let Some(refused) = judged {
        return same("the second program", told.answer, Err(refused));
    }
    match told.answer {
        Err(refused) if matches!(refused.number, 1..=3 | 13) => {
            Err(format!("the second program refuses by {refused:?}"))
        }
        Ok(_) if text.program == Program::Encode => {
            tally.seen.note("expanded back");
            expands_back(&text.bytes, &told.printed)
        }
        _ => Ok(()),
    }
}

/// By the library.
pub fn by_library() -> Result<Tally, String> {
    let mut random = Random(91);
    let mut tally = Tally::default();
    for (text, judged) in all() {
        told(&text, judged, &mut tally).map_err(|why| format!("{why}, {}", text.shown()))?;
        compare(&mut random, &text, &mut tally)?;
    }
    tally.seen.require(&["expanded back"])?;
    Ok(tally)
}

/// By the two programs.
pub fn by_programs(paths: &Paths) -> Result<Tally, String> {
    compare_whole(paths, all().into_iter().map(|(text, _)| text))
}
