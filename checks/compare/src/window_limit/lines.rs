// Texts with window lines whose answers are known: the line out of form, out of range, twice and out of place, and every other line behind it.

use crate::call::refused;
use crate::known::{self, Known};
use crate::placed::{before, ended, later, out_of_place, put, refused_lines, whole, PLACE};
use crate::text::{Program, Text};

/// What stands in the place of a window line and is out of form.
const OUT_OF_FORM: [&[u8]; 62] = [
    b"window=\n",
    b"window=00\n",
    b"window=000\n",
    b"window=0000\n",
    b"window=00000\n",
    b"window=01\n",
    b"window=001\n",
    b"window=0001\n",
    b"window=00001\n",
    b"window=0256\n",
    b"window=00256\n",
    b"window=0257\n",
    b"window=10000\n",
    b"window=25600\n",
    b"window=65537\n",
    b"window=99999\n",
    b"window=4294967298\n",
    b"window=18446744073709551618\n",
    b"window=-1\n",
    b"window=-0\n",
    b"window=+1\n",
    b"window= 1\n",
    b"window=1 \n",
    b"window =1\n",
    b" window=1\n",
    b"window\t=1\n",
    b"window=\t1\n",
    b"window=1\t\n",
    b"window=1\r\n",
    b"window=1\r",
    b"window=1\0\n",
    b"window=\xb2\n",
    b"\xef\xbb\xbfwindow=1\n",
    b"window=0x10\n",
    b"window=0X10\n",
    b"window=10h\n",
    b"window=ff\n",
    b"window=a\n",
    b"window=A\n",
    b"window=1e2\n",
    b"window=1.\n",
    b"window=1.0\n",
    b"window=1,000\n",
    b"window=1_0\n",
    b"window=x\n",
    b"window=1x\n",
    b"Window=1\n",
    b"WINDOW=1\n",
    b"windoW=1\n",
    b"window:1\n",
    b"window==1\n",
    b"window=1=1\n",
    b"window1\n",
    b"window\n",
    b"windows=1\n",
    b"windo=1\n",
    b"w=1\n",
    b"=1\n",
    b"1\n",
    b"\n",
    b"window=1",
    b"window=",
];

/// Numbers that are in form and out of range.
const OUT_OF_RANGE: [&str; 12] = [
    "0", "257", "258", "260", "300", "512", "999", "1000", "1024", "2048", "2049", "9999",
];

/// Lines of every length around the longest, with digits behind the key.
fn long_lines(program: Program) -> Vec<Known> {
    let lengths = [71, 79, 80, 81, 82, 160, 5_000];
    let line = |length: usize| format!("window={}\n", "1".repeat(length - 8));
    lengths
        .map(|length| refused_lines(program, line(length).as_bytes(), 13, PLACE))
        .to_vec()
}

/// Lines in the place of a window line, with the refusal of the first of several causes.
const SEVERAL: [(&[u8], u64, usize); 12] = [
    (b"window=2\nwindow=2\n", 13, 7),
    (b"window=2\nwindow=3\n", 13, 7),
    (b"window=256\nwindow=0\n", 13, 7),
    (b"window=2\nwindow=\n", 13, 7),
    (b"window=2\n\n", 13, 7),
    (b"window=2\nchain=1\n", 13, 7),
    (b"window=0\nwindow=2\n", 3, 6),
    (b"window=257\nwindow=257\n", 3, 6),
    (b"window=257\nx\n", 3, 6),
    (b"window=02\nwindow=2\n", 13, 6),
    (b"chain=1\nwindow=2\n", 13, 6),
    (b"chain=0\nwindow=0\n", 13, 6),
];

/// Lines that are tried anywhere but in their place.
const ANYWHERE: [&str; 5] = [
    "window=2\n",
    "window=256\n",
    "window=0\n",
    "window=\n",
    "window=2",
];

/// The text ends with its window line, within it, or without its line feed.
const ENDS: [(&str, u64, usize); 10] = [
    ("window=256\n", 13, 7),
    ("window=2\n", 13, 7),
    ("window=0\n", 3, 6),
    ("window=257\n", 3, 6),
    ("window=256", 13, 6),
    ("window=2", 13, 6),
    ("window=0", 13, 6),
    ("window=", 13, 6),
    ("window=\n", 13, 6),
    ("wind", 13, 6),
];

/// Every change of the lines behind the chain lines, with a window line that changes nothing else.
fn behind(program: Program) -> Vec<Known> {
    let mut known = Vec::new();
    for line in [&b"window=256\n"[..], b"window=2\n"] {
        for (text, answer) in known::own_changes(program) {
            let bytes = put(&text.bytes, PLACE, line);
            known.push((Text::new(program, bytes), later(answer)));
        }
    }
    known
}

/// Texts that are accepted, and document 01's list where the limit is 1: seed 3 shows the stop in slice 2.
fn accepted() -> Vec<Known> {
    let limits = ["1", "2", "3", "9", "10", "64", "99", "100", "255", "256"];
    let mut known = Vec::new();
    for program in [Program::Encode, Program::Expand] {
        for limit in limits {
            let line = format!("window={limit}\n");
            let bytes = put(whole(program).as_bytes(), PLACE, line.as_bytes());
            let answer = match (program, limit) {
                (Program::Expand, "1") => refused(12, 0),
                _ => Ok(()),
            };
            known.push((Text::new(program, bytes), answer));
        }
    }
    known
}

/// All texts with window lines whose answers are known.
pub fn all() -> Vec<Known> {
    let mut known = accepted();
    for program in [Program::Encode, Program::Expand] {
        let form = OUT_OF_FORM.iter();
        known.extend(form.map(|line| refused_lines(program, line, 13, PLACE)));
        for number in OUT_OF_RANGE {
            let line = format!("window={number}\n");
            known.push(refused_lines(program, line.as_bytes(), 3, PLACE));
        }
        known.extend(long_lines(program));
        known.extend(out_of_place(program, &ANYWHERE));
        let several = SEVERAL.iter();
        known.extend(several.map(|&(lines, number, at)| refused_lines(program, lines, number, at)));
        known.extend(before(program, b"window=0\n", 3));
        known.extend(ended(program, &ENDS));
        known.extend(behind(program));
    }
    known
}
