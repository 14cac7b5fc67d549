// Holds tests of the text of the two programs.
// Follows document 01, "Sheet and seed list", with document 02, R-5, for the last seed; some
// sheets have document 02's invert and window lines.

mod common;

use common::Random;
use second::{brute_text, encode_text, expand_text, BruteText};

const SHEET: &str = "cells=3\ntaps=6\nchains=2\nchain=1\nchain=4\ndepth=2\n\
                     slice=10\nslice=x1\nslice=1x\nslice=1x\n";
const LIST: &str = "cells=3\ntaps=6\nchains=2\nchain=1\nchain=4\nstop=0x\nslices=4\n\
                    seed=3\nseed=3\n";

fn encode(text: &str) -> String {
    String::from_utf8(encode_text(text.as_bytes())).unwrap()
}

fn expand(text: &str) -> String {
    String::from_utf8(expand_text(text.as_bytes())).unwrap()
}

fn refused(number: u64, at: u64) -> String {
    format!("refused={number}\nat={at}\n")
}

/// The sheet with its line (from 1) replaced.
fn with(text: &str, line: usize, new: &str) -> String {
    let mut lines: Vec<&str> = text.split_inclusive('\n').collect();
    lines[line - 1] = new;
    lines.concat()
}

#[test]
fn the_sheet_and_its_list() {
    assert_eq!(encode(SHEET), LIST);
    assert_eq!(expand(LIST), "slice=10\nslice=11\nslice=10\nslice=11\n");
    assert_eq!(
        brute_text(SHEET.as_bytes()),
        BruteText::Printed(LIST.into())
    );
}

#[test]
fn sheet_lines_out_of_form() {
    for (line, new) in [
        (1, "cells=\n"),
        (1, "cells=03\n"),
        (1, "cells=00\n"),
        (1, "cells=00003\n"),
        (1, "cells=10000\n"),
        (1, "cells=3 \n"),
        (1, " cells=3\n"),
        (1, "cells =3\n"),
        (1, "Cells=3\n"),
        (1, "cells=3\r\n"),
        (1, "cells=+3\n"),
        (1, "cells=a\n"),
        (1, "\n"),
        (1, "taps=6\n"),
        (2, "taps=06\n"),
        (2, "taps=0x6\n"),
        (2, "taps=A\n"),
        (2, "taps=g\n"),
        (2, "taps=10000000000000000\n"),
        (2, "taps=00000000000000006\n"),
        (3, "chains=\n"),
        (4, "chain=\n"),
        (4, "depth=2\n"),
        (5, "chain=4\nchain=4\n"),
        (6, "depth=02\n"),
        (6, "slice=10\n"),
        (7, "slice=1\n"),
        (7, "slice=100\n"),
        (7, "slice=\n"),
        (7, "slice=1X\n"),
        (7, "slice=12\n"),
        (8, "\n"),
        (10, "slice=1x"),
        (10, "slice=1x\n\n"),
        (10, "slice=1x\nx"),
        (10, "seed=3\n"),
    ] {
        let at = if new.contains("\nchain") || new.contains("x\n\n") || new.ends_with("\nx") {
            line + 1
        } else {
            line
        };
        assert_eq!(
            encode(&with(SHEET, line, new)),
            refused(13, at as u64),
            "{new:?}"
        );
    }
}

#[test]
fn sheet_lines_out_of_range() {
    for (line, new, number) in [
        (1, "cells=0\n", 1),
        (1, "cells=65\n", 1),
        (1, "cells=9999\n", 1),
        (2, "taps=0\n", 1),
        (2, "taps=3\n", 1),
        (2, "taps=c\n", 1),
        (2, "taps=ffffffffffffffff\n", 1),
        (3, "chains=0\n", 2),
        (3, "chains=65\n", 2),
        (4, "chain=0\n", 2),
        (5, "chain=8\n", 2),
        (6, "depth=0\n", 3),
        (6, "depth=257\n", 3),
    ] {
        assert_eq!(
            encode(&with(SHEET, line, new)),
            refused(number, line as u64),
            "{new:?}"
        );
    }
}

#[test]
fn sheets_that_end_early() {
    let lines: Vec<&str> = SHEET.split_inclusive('\n').collect();
    for count in 0..6 {
        assert_eq!(
            encode(&lines[..count].concat()),
            refused(13, count as u64 + 1)
        );
        assert_eq!(
            expand(&lines[..count.min(5)].concat()),
            refused(13, count.min(5) as u64 + 1)
        );
    }
    assert_eq!(encode(&lines[..6].concat()), refused(3, 0));
    assert_eq!(encode(&lines[..7].concat()), refused(3, 0));
    assert_eq!(encode(&lines[..9].concat()), refused(3, 0));
    assert_eq!(encode("cells=3"), refused(13, 1));
    assert_eq!(encode("\n"), refused(13, 1));
}

#[test]
fn the_first_refused_line_counts() {
    let text = with(&with(SHEET, 2, "taps=0\n"), 4, "chain=\n");
    assert_eq!(encode(&text), refused(1, 2));
    let text = with(&with(SHEET, 2, "taps=\n"), 4, "chain=0\n");
    assert_eq!(encode(&text), refused(13, 2));
    // The number of slices is judged after every line.
    let text = with(SHEET, 10, "slice=?\n");
    assert_eq!(encode(&text), refused(13, 10));
}

/// A sheet of one cell and one chain with so many slices.
fn long_sheet(count: usize, last: &str) -> String {
    let head = "cells=1\ntaps=1\nchains=1\nchain=1\ndepth=1\n";
    format!("{head}{}{last}", "slice=x\n".repeat(count))
}

/// A list of so many seeds, each refused by 12.
fn long_list(count: usize, last: &str) -> String {
    let head = "cells=1\ntaps=1\nchains=1\nchain=1\nstop=1\nslices=1\n";
    format!("{head}{}{last}", "seed=0\n".repeat(count))
}

#[test]
fn the_2049th_line() {
    assert_eq!(encode(&long_sheet(2048, "")), refused(8, 0));
    assert_eq!(encode(&long_sheet(2048, "slice=x\n")), refused(3, 2054));
    assert_eq!(encode(&long_sheet(2048, "slice=x")), refused(13, 2054));
    assert_eq!(encode(&long_sheet(2048, "slice=xx\n")), refused(13, 2054));
    assert_eq!(
        encode(&long_sheet(2048, "slice=x\nslice=?\n")),
        refused(3, 2054)
    );
    assert_eq!(expand(&long_list(2048, "")), refused(12, 0));
    assert_eq!(expand(&long_list(2048, "seed=0\n")), refused(3, 2055));
    assert_eq!(expand(&long_list(2048, "seed=0")), refused(13, 2055));
    assert_eq!(expand(&long_list(2048, "seed=00\n")), refused(13, 2055));
}

#[test]
fn causes_after_the_whole_sheet() {
    let text = with(&with(SHEET, 7, "slice=00\n"), 8, "slice=11\n");
    let text = with(&with(&text, 9, "slice=01\n"), 10, "slice=10\n");
    assert_eq!(encode(&text), refused(6, 0));
    // Two equal chains can't differ.
    let head = "cells=1\ntaps=1\nchains=2\nchain=1\nchain=1\n";
    assert_eq!(encode(&format!("{head}depth=1\nslice=01\n")), refused(8, 0));
    let list = format!("{head}stop=1x\nslices=1\nseed=0\n");
    assert_eq!(encode(&format!("{head}depth=1\nslice=00\n")), list);
}

#[test]
fn list_lines() {
    for (line, new, number, at) in [
        (6, "stop=0\n", 13, 6),
        (6, "stop=0xx\n", 13, 6),
        (6, "stop=02\n", 13, 6),
        (6, "slices=4\n", 13, 6),
        (6, "depth=2\n", 13, 6),
        (6, "stop=xx\n", 5, 6),
        (7, "slices=0\n", 3, 7),
        (7, "slices=2049\n", 3, 7),
        (7, "slices=04\n", 13, 7),
        (7, "slices=10000\n", 13, 7),
        (7, "slices=5\n", 14, 4),
        (7, "slices=1\n", 14, 2),
        (8, "seed=03\n", 13, 8),
        (8, "seed=\n", 13, 8),
        (8, "seed=G\n", 13, 8),
        (8, "seed=8\n", 10, 0),
        (9, "seed=8\n", 10, 1),
        (9, "seed=ffffffffffffffff\n", 10, 1),
        (9, "seed=2\n", 11, 1),
        (9, "seed=0\n", 11, 1),
        (9, "seed=3", 13, 9),
        (9, "seed=3\n\n", 13, 10),
        (9, "", 14, 2),
    ] {
        assert_eq!(
            expand(&with(LIST, line, new)),
            refused(number, at),
            "{new:?}"
        );
    }
    let lines: Vec<&str> = LIST.split_inclusive('\n').collect();
    assert_eq!(expand(&lines[..7].concat()), refused(14, 0));
    assert_eq!(expand(&lines[..6].concat()), refused(13, 7));
    assert_eq!(expand(&lines[..5].concat()), refused(13, 6));
    let other = with(LIST, 6, "stop=01\n");
    assert_eq!(expand(&with(&other, 8, "seed=0\n")), refused(12, 0));
    let last = with(&other, 9, "seed=0\n");
    assert_eq!(expand(&last), "slice=10\nslice=11\nslice=00\nslice=00\n");
    // A line out of form after a seed that would be refused.
    assert_eq!(
        expand(&with(&with(LIST, 8, "seed=8\n"), 9, "seed=\n")),
        refused(13, 9)
    );
}

#[test]
fn lines_longer_than_80_bytes() {
    let long = format!("cells=3{}\n", "0".repeat(73));
    assert_eq!(encode(&with(SHEET, 1, &long)), refused(13, 1));
    assert_eq!(encode(&"x".repeat(100_000)), refused(13, 1));
    let long = format!("slice={}\n", "x".repeat(74));
    assert_eq!(encode(&with(SHEET, 9, &long)), refused(13, 9));
}

#[test]
fn widest_slices() {
    let mut text = String::from("cells=64\ntaps=ffffffffffffffff\nchains=64\n");
    for cell in 0..64 {
        text.push_str(&format!("chain={:x}\n", 1u64 << cell));
    }
    text.push_str("depth=1\n");
    text.push_str(&format!("slice={}1\n", "0".repeat(63)));
    let list = encode(&text);
    // The stop is 1 in chain 1: one step makes cell 0 hold 1.
    assert!(list.ends_with(&format!(
        "stop=1{}\nslices=1\nseed=8000000000000000\n",
        "x".repeat(63)
    )));
    assert_eq!(expand(&list), format!("slice={}1\n", "0".repeat(63)));
}

/// A sheet of random numbers, mostly lawful.
fn random_sheet(random: &mut Random) -> Vec<u8> {
    let cells = random.between(1, 7);
    let chains = random.between(1, 4);
    let mut text = format!(
        "cells={cells}\ntaps={:x}\nchains={chains}\n",
        random.taps(cells)
    );
    for mask in random.masks(cells, chains) {
        text.push_str(&format!("chain={mask:x}\n"));
    }
    if random.percent(30) {
        text.push_str(&format!("invert={:x}\n", random.below(1 << chains)));
    }
    if random.percent(30) {
        text.push_str(&format!("window={}\n", random.between(1, 5)));
    }
    text.push_str(&format!("depth={}\n", random.between(1, 2)));
    let share = random.between(0, 60);
    for _ in 0..random.between(1, 12) {
        let (spec, bits) = random.slice(chains, share);
        let slice = second::slice_text(chains as usize, spec, bits);
        text.push_str(&format!("slice={slice}\n"));
    }
    text.into_bytes()
}

#[test]
fn random_sheets_against_brute_force() {
    let mut random = Random(21);
    let mut accepted = 0;
    for _ in 0..1500 {
        let sheet = random_sheet(&mut random);
        let list = encode_text(&sheet);
        assert_eq!(brute_text(&sheet), BruteText::Printed(list.clone()));
        if !list.starts_with(b"refused=") {
            accepted += 1;
            assert!(!expand_text(&list).starts_with(b"refused="));
        }
    }
    assert!(accepted > 100, "{accepted} of 1500 accepted");
}

#[test]
fn random_bytes() {
    let mut random = Random(22);
    for _ in 0..3000 {
        let mut sheet = random_sheet(&mut random);
        if random.percent(50) {
            sheet = encode_text(&sheet);
        }
        for _ in 0..random.between(1, 3) {
            let place = random.below(sheet.len() as u64) as usize;
            match random.below(3) {
                0 => sheet[place] = random.below(256) as u8,
                1 => sheet.truncate(place + 1),
                _ => sheet.insert(place, b"\n0x1=a"[random.below(6) as usize]),
            }
        }
        let list = encode_text(&sheet);
        assert_eq!(brute_text(&sheet), BruteText::Printed(list));
        let _ = expand_text(&sheet);
    }
}
