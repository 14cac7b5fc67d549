// Texts with invert lines whose answers are known: the line out of form, beyond the chains, twice and out of place, every other line behind it, and 1 to 64 chains.

use super::all as all_of;
use crate::bench::LIST;
use crate::call::refused;
use crate::known::{self, Known};
use crate::placed::{before, ended, later, out_of_place, put, refused_lines, whole, PLACE};
use crate::text::{Program, Text};
use crate::window_limit::lines;

/// What stands in the place of an invert line and is out of form.
const OUT_OF_FORM: [&[u8]; 57] = [
    b"invert=\n",
    b"invert=00\n",
    b"invert=0000\n",
    b"invert=01\n",
    b"invert=02\n",
    b"invert=04\n",
    b"invert=0000000000000002\n",
    b"invert=00000000000000002\n",
    b"invert=10000000000000000\n",
    b"invert=10000000000000002\n",
    b"invert=fffffffffffffffff\n",
    b"invert=-1\n",
    b"invert=-0\n",
    b"invert=+1\n",
    b"invert= 1\n",
    b"invert=1 \n",
    b"invert =1\n",
    b" invert=1\n",
    b"invert\t=1\n",
    b"invert=\t1\n",
    b"invert=1\t\n",
    b"invert=1\r\n",
    b"invert=1\r",
    b"invert=1\0\n",
    b"invert=\xb2\n",
    b"\xef\xbb\xbfinvert=1\n",
    b"invert=0x2\n",
    b"invert=0X2\n",
    b"invert=2h\n",
    b"invert=A\n",
    b"invert=F\n",
    b"invert=fF\n",
    b"invert=g\n",
    b"invert=x\n",
    b"invert=1x\n",
    b"invert=x1\n",
    b"invert=1.\n",
    b"invert=1,2\n",
    b"invert=1_0\n",
    b"Invert=1\n",
    b"INVERT=1\n",
    b"inverT=1\n",
    b"invert:1\n",
    b"invert==1\n",
    b"invert=1=1\n",
    b"invert1\n",
    b"invert\n",
    b"inverts=1\n",
    b"inverted=1\n",
    b"inver=1\n",
    b"nvert=1\n",
    b"i=1\n",
    b"=1\n",
    b"1\n",
    b"\n",
    b"invert=1",
    b"invert=",
];

/// Masks in form with a chain beyond the two.
const BEYOND: [&str; 16] = [
    "4",
    "5",
    "6",
    "7",
    "8",
    "a",
    "f",
    "10",
    "ff",
    "100",
    "80000000",
    "100000000",
    "100000003",
    "7fffffffffffffff",
    "8000000000000000",
    "ffffffffffffffff",
];

/// Lines with digits behind the key, around the longest number and the longest line.
fn long_lines(program: Program) -> Vec<Known> {
    let mut known = Vec::new();
    for length in [23, 24, 25, 26, 71, 79, 80, 81, 82, 160, 5_000] {
        let line = format!("invert={}\n", "1".repeat(length - 8));
        let number = if length <= 24 { 2 } else { 13 };
        known.push(refused_lines(program, line.as_bytes(), number, PLACE));
    }
    known
}

/// Lines in the place of an invert line, with the refusal of the first of several causes.
const SEVERAL: [(&[u8], u64, usize); 22] = [
    (b"invert=2\ninvert=2\n", 13, 7),
    (b"invert=2\ninvert=3\n", 13, 7),
    (b"invert=0\ninvert=0\n", 13, 7),
    (b"invert=0\ninvert=4\n", 13, 7),
    (b"invert=2\ninvert=\n", 13, 7),
    (b"invert=2\n\n", 13, 7),
    (b"invert=2\nchain=1\n", 13, 7),
    (b"invert=4\ninvert=2\n", 2, 6),
    (b"invert=4\nx\n", 2, 6),
    (b"invert=4\nwindow=0\n", 2, 6),
    (b"invert=4\nwindow=02\n", 2, 6),
    (b"invert=02\ninvert=2\n", 13, 6),
    (b"invert=2\nwindow=0\n", 3, 7),
    (b"invert=2\nwindow=257\n", 3, 7),
    (b"invert=2\nwindow=02\n", 13, 7),
    (b"window=2\ninvert=2\n", 13, 7),
    (b"window=2\ninvert=4\n", 13, 7),
    (b"window=0\ninvert=4\n", 3, 6),
    (b"invert=2\nwindow=2\ninvert=2\n", 13, 8),
    (b"window=2\ninvert=2\nwindow=2\n", 13, 7),
    (b"chain=1\ninvert=2\n", 13, 6),
    (b"chain=0\ninvert=4\n", 13, 6),
];

/// Lines that are tried anywhere but in their place.
const ANYWHERE: [&str; 5] = [
    "invert=2\n",
    "invert=0\n",
    "invert=4\n",
    "invert=\n",
    "invert=2",
];

/// The text ends with its invert line, within it, without its line feed, or with a window line behind it.
const ENDS: [(&str, u64, usize); 11] = [
    ("invert=0\n", 13, 7),
    ("invert=2\n", 13, 7),
    ("invert=4\n", 2, 6),
    ("invert=2", 13, 6),
    ("invert=4", 13, 6),
    ("invert=", 13, 6),
    ("invert=\n", 13, 6),
    ("inv", 13, 6),
    ("invert=2\nwindow=2\n", 13, 8),
    ("invert=2\nwindow=2", 13, 7),
    ("invert=2\nwind", 13, 7),
];

/// Every change of the lines behind the chain lines, those of window lines too, with an invert line of 0 before them, which changes nothing else.
fn behind(program: Program) -> Vec<Known> {
    let mut changes = known::own_changes(program);
    let windows = lines::all().into_iter();
    changes.extend(windows.filter(|(text, _)| text.program == program));
    // a third chain line would be missing before the invert line and not behind it
    let third = |text: &Text| text.bytes.windows(9).any(|part| part == b"chains=3\n");
    changes.retain(|(text, _)| !third(text));
    let put = |(text, answer): Known| {
        let bytes = put(&text.bytes, PLACE, b"invert=0\n");
        (Text::new(program, bytes), later(answer))
    };
    changes.into_iter().map(put).collect()
}

/// Document 01's sheet and list under each mask: with chain 1 inverted the seed 3 shows the stop at once.
fn accepted() -> Vec<Known> {
    let mut known = Vec::new();
    for program in [Program::Encode, Program::Expand] {
        for mask in 0..4 {
            for window in ["", "window=256\n", "window=3\n"] {
                let lines = format!("invert={mask}\n{window}");
                let bytes = put(whole(program).as_bytes(), PLACE, lines.as_bytes());
                let answer = match (program, mask % 2) {
                    (Program::Expand, 1) => refused(11, 0),
                    _ => Ok(()),
                };
                known.push((Text::new(program, bytes), answer));
            }
        }
    }
    known
}

/// The seed 0 with the stop 01: refused by 11 with chain 2 inverted. Otherwise it is accepted where it is the last seed and no more slices than the limit are left, or refused by 12.
fn seed_0() -> Vec<Known> {
    let lists: [(&[u8], &[u8], bool); 4] = [
        (b"slices=1\n", b"", true),
        (b"slices=256\n", b"", true),
        (b"slices=257\n", b"", false),
        (b"slices=1\n", b"seed=0\n", false),
    ];
    let mut known = Vec::new();
    for (slices, next, ends) in lists {
        let changes: [(usize, &[u8]); 4] =
            [(6, b"stop=01\n"), (7, slices), (8, b"seed=0\n"), (9, next)];
        let list = known::with(LIST, &changes);
        for line in [
            &b""[..],
            b"invert=0\n",
            b"invert=1\n",
            b"invert=2\n",
            b"invert=3\n",
        ] {
            let answer = match (line, ends) {
                (b"invert=2\n", _) => refused(11, 0),
                (_, true) => Ok(()),
                (_, false) => refused(12, 0),
            };
            let text = Text::new(Program::Expand, put(&list, PLACE, line));
            known.push((text, answer));
        }
    }
    known
}

/// A sheet or list of R with so many chains that all read cell 0, under a mask. From 2 and, where chain 1 is inverted, from 1 it delivers one slice and the stop.
fn chained(program: Program, chains: usize, mask: &str, first: bool) -> Text {
    let head = format!("cells=3\ntaps=6\nchains={chains}\n");
    let lines = "chain=1\n".repeat(chains);
    let free = "x".repeat(chains - 1);
    let seed = if first { 1 } else { 2 };
    let rest = match program {
        Program::Encode => format!("depth=1\nslice=x{free}\n"),
        Program::Expand => format!("stop=1{free}\nslices=1\nseed={seed}\n"),
    };
    let text = format!("{head}{lines}invert={mask}\n{rest}");
    Text::new(program, text.into_bytes())
}

/// 1 to 64 chains with none, the last and all inverted, and with the lowest and the highest mask beyond them.
fn ranges(program: Program) -> Vec<Known> {
    let mut known = Vec::new();
    for chains in 1..=64 {
        for mask in [0, 1 << (chains - 1), all_of(chains)] {
            let text = chained(program, chains, &format!("{mask:x}"), mask & 1 == 1);
            known.push((text, Ok(())));
        }
        let (lowest, number) = match chains {
            64 => ("10000000000000000".into(), 13),
            _ => (format!("{:x}", 1u64 << chains), 2),
        };
        let text = chained(program, chains, &lowest, false);
        known.push((text, refused(number, chains + 4)));
        if chains < 64 {
            let text = chained(program, chains, "8000000000000000", false);
            known.push((text, refused(2, chains + 4)));
        }
    }
    known
}

/// All texts with invert lines whose answers are known.
pub fn all() -> Vec<Known> {
    let mut known = accepted();
    known.extend(seed_0());
    for program in [Program::Encode, Program::Expand] {
        let form = OUT_OF_FORM.iter();
        known.extend(form.map(|line| refused_lines(program, line, 13, PLACE)));
        for mask in BEYOND {
            let line = format!("invert={mask}\n");
            known.push(refused_lines(program, line.as_bytes(), 2, PLACE));
        }
        known.extend(long_lines(program));
        known.extend(out_of_place(program, &ANYWHERE));
        let several = SEVERAL.iter();
        known.extend(several.map(|&(lines, number, at)| refused_lines(program, lines, number, at)));
        known.extend(before(program, b"invert=4\n", 2));
        known.extend(ended(program, &ENDS));
        known.extend(behind(program));
        known.extend(ranges(program));
    }
    known
}
