// Texts whose answers are known from document 01: its sheet and its list with single lines changed, with several causes at once, and at the limits of length.

use crate::bench::{LIST, SHEET};
use crate::call::refused;
use crate::text::{Program, Text};
use second::Refused;

/// A text with the refusal that must come of it; none where it is accepted.
pub type Known = (Text, Result<(), Refused>);

/// A line from 1, what stands in its place, and the refusal with its value.
type Row = (usize, &'static [u8], u64, usize);

/// Lines of the sheet and of the list alike: cells, taps, chains and chain.
const HEAD: [Row; 66] = [
    (1, b"cells=\n", 13, 1),
    (1, b"cells=03\n", 13, 1),
    (1, b"cells=00\n", 13, 1),
    (1, b"cells=00003\n", 13, 1),
    (1, b"cells=10000\n", 13, 1),
    (1, b"cells=3\r\n", 13, 1),
    (1, b"cells=3\r", 13, 1),
    (1, b"cells=3\0\n", 13, 1),
    (1, b"cells=\xb3\n", 13, 1),
    (1, b"\xef\xbb\xbfcells=3\n", 13, 1),
    (1, b" cells=3\n", 13, 1),
    (1, b"cells =3\n", 13, 1),
    (1, b"cells= 3\n", 13, 1),
    (1, b"cells=3 \n", 13, 1),
    (1, b"cells=\t3\n", 13, 1),
    (1, b"Cells=3\n", 13, 1),
    (1, b"CELLS=3\n", 13, 1),
    (1, b"cell=3\n", 13, 1),
    (1, b"cells3\n", 13, 1),
    (1, b"cells==3\n", 13, 1),
    (1, b"cells:3\n", 13, 1),
    (1, b"cells=+3\n", 13, 1),
    (1, b"cells=-3\n", 13, 1),
    (1, b"cells=0x3\n", 13, 1),
    (1, b"cells=a\n", 13, 1),
    (1, b"cells\n", 13, 1),
    (1, b"=3\n", 13, 1),
    (1, b"\n", 13, 1),
    (1, b"", 13, 1),
    (1, b"\ncells=3\n", 13, 1),
    (1, b"cells=3\n\n", 13, 2),
    (1, b"cells=3\ncells=3\n", 13, 2),
    (1, b"cells=0\n", 1, 1),
    (1, b"cells=65\n", 1, 1),
    (1, b"cells=9999\n", 1, 1),
    (1, b"cells=065\n", 13, 1),
    (1, b"cells=2\n", 1, 2),
    (1, b"cells=4\n", 1, 2),
    (2, b"taps=\n", 13, 2),
    (2, b"taps=06\n", 13, 2),
    (2, b"taps=0x6\n", 13, 2),
    (2, b"taps=A\n", 13, 2),
    (2, b"taps=g\n", 13, 2),
    (2, b"taps=10000000000000006\n", 13, 2),
    (2, b"taps=00000000000000006\n", 13, 2),
    (2, b"taps=6\ntaps=6\n", 13, 3),
    (2, b"", 13, 2),
    (2, b"taps=0\n", 1, 2),
    (2, b"taps=3\n", 1, 2),
    (2, b"taps=c\n", 1, 2),
    (2, b"taps=ffffffffffffffff\n", 1, 2),
    (3, b"chains=02\n", 13, 3),
    (3, b"chain=2\n", 13, 3),
    (3, b"chains=0\n", 2, 3),
    (3, b"chains=65\n", 2, 3),
    (3, b"chains=9999\n", 2, 3),
    (3, b"chains=1\n", 13, 5),
    (3, b"chains=3\n", 13, 6),
    (3, b"chains=64\n", 13, 6),
    (4, b"", 13, 5),
    (4, b"chain=01\n", 13, 4),
    (4, b"chains=1\n", 13, 4),
    (4, b"chain=0\n", 2, 4),
    (5, b"chain=8\n", 2, 5),
    (5, b"chain=8000000000000000\n", 2, 5),
    (5, b"chain=4\nchain=4\n", 13, 6),
];

/// Lines of the sheet: depth and slice.
const OF_SHEET: [Row; 30] = [
    (6, b"", 13, 6),
    (6, b"depth=\n", 13, 6),
    (6, b"depth=02\n", 13, 6),
    (6, b"depth=00256\n", 13, 6),
    (6, b"stop=0x\n", 13, 6),
    (6, b"slices=4\n", 13, 6),
    (6, b"depth=2\ndepth=2\n", 13, 7),
    (6, b"depth=0\n", 3, 6),
    (6, b"depth=257\n", 3, 6),
    (6, b"depth=9999\n", 3, 6),
    (6, b"depth=3\n", 3, 0),
    (6, b"depth=8\n", 3, 0),
    (6, b"depth=256\n", 3, 0),
    (7, b"slice=\n", 13, 7),
    (7, b"slice=1\n", 13, 7),
    (7, b"slice=100\n", 13, 7),
    (7, b"slice=1X\n", 13, 7),
    (7, b"slice=12\n", 13, 7),
    (7, b"slice=1 \n", 13, 7),
    (7, b"slice=1\r\n", 13, 7),
    (7, b"slices=10\n", 13, 7),
    (7, b"seed=3\n", 13, 7),
    (7, b"", 3, 0),
    (10, b"", 3, 0),
    (10, b"slice=1x", 13, 10),
    (10, b"slice=1x\n\n", 13, 11),
    (10, b"slice=1x\nx", 13, 11),
    (10, b"slice=1x\nslice=1x\n", 3, 0),
    (10, b"slice=1x\ndepth=2\n", 13, 11),
    (10, b"slice=00\n", 0, 0),
];

/// Lines of the list: stop, slices and seed. Each seed runs into the stop after two slices.
const OF_LIST: [Row; 37] = [
    (6, b"", 13, 6),
    (6, b"stop=\n", 13, 6),
    (6, b"stop=0\n", 13, 6),
    (6, b"stop=0xx\n", 13, 6),
    (6, b"stop=0X\n", 13, 6),
    (6, b"depth=2\n", 13, 6),
    (6, b"slice=0x\n", 13, 6),
    (6, b"stop=xx\n", 5, 6),
    (6, b"stop=xxx\n", 13, 6),
    (6, b"stop=x0\n", 11, 0),
    (7, b"", 13, 7),
    (7, b"slices=\n", 13, 7),
    (7, b"slices=04\n", 13, 7),
    (7, b"slices=10000\n", 13, 7),
    (7, b"slice=10\n", 13, 7),
    (7, b"slices=0\n", 3, 7),
    (7, b"slices=2049\n", 3, 7),
    (7, b"slices=1\n", 14, 2),
    (7, b"slices=2\n", 14, 2),
    (7, b"slices=3\n", 0, 0),
    (7, b"slices=5\n", 14, 4),
    (7, b"slices=2048\n", 14, 4),
    (8, b"seed=\n", 13, 8),
    (8, b"seed=03\n", 13, 8),
    (8, b"seed=A\n", 13, 8),
    (8, b"seed=10000000000000003\n", 13, 8),
    (8, b"seeds=3\n", 13, 8),
    (8, b"slice=10\n", 13, 8),
    (8, b"seed=8\n", 10, 0),
    (9, b"seed=8000000000000000\n", 10, 1),
    (8, b"seed=0\n", 11, 0),
    (9, b"seed=6\n", 11, 1),
    (9, b"", 14, 2),
    (9, b"seed=3\nseed=3\n", 14, 4),
    (9, b"seed=3", 13, 9),
    (9, b"seed=3\n\n", 13, 10),
    (9, b"seed=3\nslices=4\n", 13, 10),
];

/// Lines from 1 with what stands in their places.
type Changes = &'static [(usize, &'static [u8])];

/// Several causes in one sheet: the first refused line answers, its form before its range, and all lines before the whole.
const SEVERAL_OF_SHEET: [(Changes, u64, usize); 15] = [
    (&[(9, b"slice=00\n"), (10, b"slice=10\n")], 8, 1),
    (&[(7, b""), (8, b""), (9, b""), (10, b"")], 3, 0),
    (
        &[(6, b"depth=257\n"), (7, b""), (8, b""), (9, b""), (10, b"")],
        3,
        6,
    ),
    (&[(1, b"cells=65\n"), (2, b"taps=\n")], 1, 1),
    (&[(1, b"cells=65\n"), (10, b"slice=1x")], 1, 1),
    (&[(2, b"taps=0\n"), (4, b"chain=\n")], 1, 2),
    (&[(2, b"taps=\n"), (4, b"chain=0\n")], 13, 2),
    (&[(3, b"chains=65\n"), (2, b"taps=3\n")], 1, 2),
    (&[(4, b"chain=0\n"), (5, b"chain=\n")], 2, 4),
    (&[(6, b"depth=0\n"), (7, b"slice=2x\n")], 3, 6),
    (&[(6, b"depth=3\n"), (10, b"slice=1x")], 13, 10),
    (&[(6, b"depth=3\n"), (10, b"slice=00\n")], 3, 0),
    (&[(8, b"slice=0\n"), (9, b"seed=1\n")], 13, 8),
    (
        &[
            (7, b"slice=00\n"),
            (8, b"slice=01\n"),
            (9, b"slice=10\n"),
            (10, b"slice=11\n"),
        ],
        6,
        0,
    ),
    (
        &[
            (6, b"depth=3\n"),
            (7, b"slice=00\n"),
            (8, b"slice=01\n"),
            (9, b"slice=10\n"),
            (10, b"slice=11\n"),
        ],
        3,
        0,
    ),
];

/// Several causes in one list.
const SEVERAL_OF_LIST: [(Changes, u64, usize); 15] = [
    (&[(8, b"seed=8\n"), (9, b"seed=\n")], 13, 9),
    (&[(8, b"seed=8\n"), (9, b"seed=3")], 13, 9),
    (&[(7, b"slices=0\n"), (8, b"seed=8\n")], 3, 7),
    (&[(6, b"stop=xx\n"), (7, b"slices=0\n")], 5, 6),
    (&[(7, b"slices=2049\n"), (8, b""), (9, b"")], 3, 7),
    (&[(8, b""), (9, b"")], 14, 0),
    (&[(8, b"seed=6\n"), (9, b"seed=8\n")], 11, 0),
    (&[(8, b"seed=8\n"), (9, b"seed=6\n")], 10, 0),
    (
        &[(6, b"stop=01\n"), (8, b"seed=0\n"), (9, b"seed=8\n")],
        12,
        0,
    ),
    (
        &[(6, b"stop=01\n"), (8, b"seed=0\n"), (9, b"seed=3\n")],
        12,
        0,
    ),
    (
        &[(6, b"stop=01\n"), (8, b"seed=3\n"), (9, b"seed=0\n")],
        0,
        0,
    ),
    (
        &[(6, b"stop=01\n"), (7, b"slices=2\n"), (9, b"seed=0\n")],
        14,
        2,
    ),
    (
        &[(6, b"stop=01\n"), (7, b"slices=259\n"), (9, b"seed=0\n")],
        12,
        1,
    ),
    (&[(7, b"slices=7\n"), (9, b"seed=f\n")], 10, 1),
    (&[(7, b"slices=7\n"), (9, b"seed=4\n")], 11, 1),
];

/// An entry, how many times it stands, what follows, and the refusal with its value; 0 where there is none.
type Many = (&'static str, usize, &'static str, u64, usize);

/// Numbers of slice lines at their limit.
const SLICES_AT_LIMIT: [Many; 10] = [
    ("slice=1x\n", 2_048, "", 0, 0),
    ("slice=1x\n", 2_049, "", 3, 2_055),
    ("slice=1x\n", 2_050, "", 3, 2_055),
    ("slice=1x\n", 2_049, "slice=2x\n", 3, 2_055),
    ("slice=1x\n", 2_048, "slice=2x\n", 13, 2_055),
    ("slice=1x\n", 2_048, "slice=1x", 13, 2_055),
    ("slice=1x\n", 2_048, "\n", 13, 2_055),
    ("slice=1x\n", 2_048, "seed=3\n", 13, 2_055),
    ("slice=1x\n", 2_047, "slice=2x\nslice=1x\n", 13, 2_054),
    ("slice=00\n", 2_049, "", 3, 2_055),
];

/// Numbers of seed lines at their limit. Seed 7 delivers one slice of R and seed 3 two, but the last seed only what is left.
const SEEDS_AT_LIMIT: [Many; 12] = [
    ("seed=7\n", 2_048, "", 0, 0),
    ("seed=7\n", 2_046, "seed=3\n", 0, 0),
    ("seed=3\n", 2_048, "", 14, 4_094),
    ("seed=7\n", 2_047, "", 14, 2_047),
    ("seed=7\n", 2_049, "", 3, 2_056),
    ("seed=8\n", 2_049, "", 3, 2_056),
    ("seed=8\n", 2_048, "", 10, 0),
    ("seed=8\n", 2_048, "seed=8", 13, 2_056),
    ("seed=8\n", 2_048, "seed=08\n", 13, 2_056),
    ("seed=7\n", 2_047, "seed=8\n", 10, 2_047),
    ("seed=7\n", 2_047, "seed=6\n", 11, 2_047),
    ("seed=7\n", 2_047, "seed=3\n", 0, 0),
];

/// The text with what stands in the place of some of its lines.
pub fn with(text: &str, changes: &[(usize, &[u8])]) -> Vec<u8> {
    let mut lines: Vec<&[u8]> = text.split_inclusive('\n').map(str::as_bytes).collect();
    for (line, new) in changes {
        lines[line - 1] = new;
    }
    lines.concat()
}

/// The first lines of a text, and then so many times the entry, and the rest.
fn many(program: Program, entry: &str, count: usize, rest: &str) -> Text {
    let (text, head) = match program {
        Program::Encode => (SHEET.replace("depth=2", "depth=1"), 6),
        Program::Expand => (LIST.replace("slices=4", "slices=2048"), 7),
    };
    let head: String = text.split_inclusive('\n').take(head).collect();
    Text::new(program, (head + &entry.repeat(count) + rest).into_bytes())
}

/// Texts of no line or of one.
fn short() -> Vec<Known> {
    let texts: [&[u8]; 9] = [
        b"", b"\n", b"\n\n", b"\0", b"\r\n", b" ", b"\xff", b"=", b"cells=3",
    ];
    let mut known = Vec::new();
    for program in [Program::Encode, Program::Expand] {
        for text in texts {
            known.push((Text::new(program, text.to_vec()), refused(13, 1)));
        }
        for length in [79, 80, 81, 82, 5_000] {
            let line = format!("{}\n", "x".repeat(length - 1));
            known.push((Text::new(program, line.into_bytes()), refused(13, 1)));
            let line = format!("cells={}\n", "3".repeat(length - 7));
            known.push((Text::new(program, line.into_bytes()), refused(13, 1)));
        }
    }
    known
}

/// A refusal by its number and value; none for number 0.
fn answer(number: u64, at: usize) -> Result<(), Refused> {
    match number {
        0 => Ok(()),
        _ => refused(number, at),
    }
}

/// Single lines of cells, taps, chains and chain changed.
fn head_changes(program: Program) -> Vec<Known> {
    let text = match program {
        Program::Encode => SHEET,
        Program::Expand => LIST,
    };
    let mut known = Vec::new();
    for &(line, new, number, at) in &HEAD {
        let text = Text::new(program, with(text, &[(line, new)]));
        known.push((text, answer(number, at)));
    }
    known
}

/// Single lines of the others changed, several, and numbers of lines at their limit.
pub fn own_changes(program: Program) -> Vec<Known> {
    let (text, own, several, limits) = match program {
        Program::Encode => (
            SHEET,
            &OF_SHEET[..],
            &SEVERAL_OF_SHEET[..],
            &SLICES_AT_LIMIT[..],
        ),
        Program::Expand => (
            LIST,
            &OF_LIST[..],
            &SEVERAL_OF_LIST[..],
            &SEEDS_AT_LIMIT[..],
        ),
    };
    let mut known = Vec::new();
    for &(line, new, number, at) in own {
        let text = Text::new(program, with(text, &[(line, new)]));
        known.push((text, answer(number, at)));
    }
    for &(changes, number, at) in several {
        let text = Text::new(program, with(text, changes));
        known.push((text, answer(number, at)));
    }
    for &(entry, count, rest, number, at) in limits {
        known.push((many(program, entry, count, rest), answer(number, at)));
    }
    known
}

/// All texts whose answers are known.
pub fn all() -> Vec<Known> {
    let other_stop = with(LIST, &[(6, b"stop=01\n")]);
    let mut known = vec![
        (Text::new(Program::Encode, SHEET.into()), Ok(())),
        (Text::new(Program::Expand, LIST.into()), Ok(())),
        (Text::new(Program::Expand, other_stop), Ok(())),
        (Text::new(Program::Expand, SHEET.into()), refused(13, 6)),
        (Text::new(Program::Encode, LIST.into()), refused(13, 6)),
    ];
    for program in [Program::Encode, Program::Expand] {
        known.extend(head_changes(program));
        known.extend(own_changes(program));
    }
    known.extend(short());
    known
}
