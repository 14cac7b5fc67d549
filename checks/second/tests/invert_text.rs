// Holds tests of the invert line in the text of the two programs.
// Follows document 02, R-4, with R-5 for the last seed, and document 01, "Sheet and seed list".

mod common;

use common::cores::{small, Core};
use common::texts::{encoded, expanded, head, put, refusal, slice_lines, LIST, SHEET, SLICES};
use common::Random;
use second::*;

/// The lines of document 01's sheet up to the last chain.
const HEAD: &str = "cells=3\ntaps=6\nchains=2\nchain=1\nchain=4\n";

/// What both programs say of their text with `more` before line 6.
fn both(more: &str) -> (String, String) {
    (encoded(&put(SHEET, 6, more)), expanded(&put(LIST, 6, more)))
}

/// The same refusal of both programs.
fn both_refused(number: u64, at: usize) -> (String, String) {
    (refusal(number, at), refusal(number, at))
}

#[test]
fn an_invert_line_of_the_sheet() {
    // Worked by hand: the stop slice 0x stays, the seeds and the other bits change.
    for (line, seeds, slices) in [
        ("", "seed=3\nseed=3\n", SLICES),
        ("invert=0\n", "seed=3\nseed=3\n", SLICES),
        (
            "invert=1\n",
            "seed=2\nseed=6\nseed=0\n",
            "slice=10\nslice=11\nslice=11\nslice=10\n",
        ),
        (
            "invert=2\n",
            "seed=5\nseed=1\n",
            "slice=10\nslice=11\nslice=10\nslice=11\n",
        ),
        (
            "invert=3\n",
            "seed=4\nseed=0\n",
            "slice=10\nslice=11\nslice=11\nslice=11\n",
        ),
    ] {
        let list = encoded(&put(SHEET, 6, line));
        assert_eq!(list, format!("{HEAD}{line}stop=0x\nslices=4\n{seeds}"));
        assert_eq!(expanded(&list), slices);
        // A window line that changes nothing, behind it.
        let both_lines = format!("{line}window=3\n");
        let list = encoded(&put(SHEET, 6, &both_lines));
        let wanted = format!("{HEAD}{both_lines}stop=0x\nslices=4\n{seeds}");
        assert_eq!(list, wanted);
        assert_eq!(expanded(&list), slices);
    }
}

#[test]
fn an_invert_line_and_a_window_line() {
    // Of single slices, 2 covers 11 (5 is 00) and 4 covers 10 (1 is 01); state 0, always 11,
    // covers the last.
    let list = encoded(&put(SHEET, 6, "invert=3\nwindow=1\n"));
    let seeds = "seed=4\nseed=2\nseed=2\nseed=0\n";
    let wanted = format!("{HEAD}invert=3\nwindow=1\nstop=0x\nslices=4\n{seeds}");
    assert_eq!(list, wanted);
    assert_eq!(expanded(&list), "slice=10\nslice=11\nslice=11\nslice=11\n");
    // The other way round the lines are out of order.
    for lines in ["window=1\ninvert=3\n", "window=256\ninvert=0\n"] {
        assert_eq!(both(lines), both_refused(13, 7));
    }
    for (lines, number, at) in [
        ("window=0\ninvert=3\n", 3, 6),
        ("window=1\ninvert=4\n", 13, 7),
        ("invert=4\nwindow=0\n", 2, 6),
        ("invert=4\nwindow=\n", 2, 6),
        ("invert=04\nwindow=0\n", 13, 6),
        ("invert=3\nwindow=0\n", 3, 7),
        ("invert=3\nwindow=257\n", 3, 7),
        ("invert=3\nwindow=01\n", 13, 7),
        ("invert=3\nwindow=2\ninvert=3\n", 13, 8),
        ("invert=3\nwindow=2\nwindow=2\n", 13, 8),
        ("invert=3\nwindow=2\nchain=1\n", 13, 8),
    ] {
        assert_eq!(both(lines), both_refused(number, at), "{lines:?}");
    }
}

#[test]
fn document_01_s_list_inverted() {
    // Slice 0 of seed 3 is 10, 00, 11, 01 under the four masks; the stop is 0x.
    for (line, wanted) in [
        ("invert=0\n", SLICES.to_string()),
        ("invert=1\n", refusal(11, 0)),
        ("invert=2\n", "slice=11\nslice=10\n".repeat(2)),
        ("invert=3\n", refusal(11, 0)),
    ] {
        assert_eq!(expanded(&put(LIST, 6, line)), wanted);
    }
    // The seeds as they now come out, with the place of the refused one.
    for (line, seeds, number, at) in [
        ("invert=1\n", "seed=0\nseed=6\n", 12, 0),
        ("invert=1\n", "seed=6\nseed=8\n", 10, 1),
        ("invert=1\n", "seed=6\nseed=2\n", 14, 3),
        ("invert=2\n", "seed=5\nseed=0\n", 11, 1),
        ("invert=2\n", "seed=5\nseed=5\nseed=5\n", 14, 6),
        ("invert=2\nwindow=2\n", "seed=5\nseed=3\n", 12, 0),
        ("invert=3\n", "seed=0\nseed=1\n", 12, 0),
        ("invert=3\n", "", 14, 0),
    ] {
        let text = format!("{HEAD}{line}stop=0x\nslices=4\n{seeds}");
        assert_eq!(expanded(&text), refusal(number, at), "{text:?}");
    }
}

#[test]
fn invert_lines_out_of_range() {
    for mask in [
        "4",
        "5",
        "7",
        "8",
        "f",
        "10",
        "fffc",
        "8000000000000000",
        "ffffffffffffffff",
    ] {
        let line = format!("invert={mask}\n");
        assert_eq!(both(&line), both_refused(2, 6), "{line:?}");
    }
}

#[test]
fn the_range_for_every_number_of_chains() {
    for chains in 1..=64 {
        let core = Core {
            cells: 1,
            taps: 1,
            invert: 0,
            masks: vec![1; chains],
            stop: (1, 1),
        };
        let head = head(&core);
        let x = "x".repeat(chains);
        let all = u64::MAX >> (64 - chains);
        for mask in [0, 1, 1 << (chains - 1), all, all << 1, 1 << 63, u64::MAX] {
            let line = format!("invert={mask:x}\n");
            let sheet = format!("{head}{line}depth=1\nslice={x}\n");
            let list = format!("{head}{line}stop=1{}\nslices=1\nseed=0\n", &x[1..]);
            // The one cell never changes: no seed stops later, and the state that keeps chain
            // 1 at 0 covers the last slice.
            if mask & !all == 0 {
                let seed = format!("seed={}\n", mask & 1);
                assert_eq!(encoded(&sheet), list.replace("seed=0\n", &seed));
                let slice = format!("slice={}\n", slice_text(chains, all, mask));
                let wanted = [slice, refusal(11, 0)];
                assert_eq!(expanded(&list), wanted[(mask & 1) as usize]);
            } else {
                assert_eq!(encoded(&sheet), refusal(2, chains + 4));
                assert_eq!(expanded(&list), refusal(2, chains + 4));
            }
        }
    }
}

/// Lines that are no invert line, for want of form.
const OUT_OF_FORM: [&str; 48] = [
    "invert=",
    "invert=00",
    "invert=01",
    "invert=001",
    "invert=003",
    "invert=04",
    "invert=0000000000000001",
    "invert=00000000000000001",
    "invert=10000000000000000",
    "invert=fffffffffffffffff",
    "invert=+1",
    "invert=-1",
    "invert=-0",
    "invert= 1",
    "invert=1 ",
    "invert =1",
    " invert=1",
    "invert=1 1",
    "invert=\t1",
    "invert=1\r",
    "invert=1\0",
    "Invert=1",
    "INVERT=1",
    "invert=A",
    "invert=F",
    "invert=g",
    "invert=1g",
    "invert=0x1",
    "invert=1h",
    "invert=x",
    "invert=x1",
    "invert=1x",
    "invert=1.",
    "invert=1,",
    "invert=1,2",
    "invert=1_0",
    "invert:1",
    "invert",
    "invert1",
    "inverts=1",
    "inverted=1",
    "inver=1",
    "inv=1",
    "i=1",
    "invert==1",
    "invert=1=1",
    "invert=\u{0661}",
    "=1",
];

#[test]
fn invert_lines_out_of_form() {
    for line in OUT_OF_FORM {
        let wanted = both_refused(13, 6);
        assert_eq!(both(&format!("{line}\n")), wanted, "{line:?}");
        // A window line behind it mends nothing.
        let more = format!("{line}\nwindow=2\n");
        assert_eq!(both(&more), wanted, "{line:?}");
    }
    let long = format!("invert={}1\n", "0".repeat(80));
    assert_eq!(both(&long), both_refused(13, 6));
    let text = [HEAD.as_bytes(), b"invert=1\xff\n"].concat();
    assert_eq!(encode_text(&text), refusal(13, 6).as_bytes());
    assert_eq!(expand_text(&text), refusal(13, 6).as_bytes());
}

#[test]
fn invert_lines_twice() {
    for (lines, number, at) in [
        ("invert=1\ninvert=1\n", 13, 7),
        ("invert=0\ninvert=0\n", 13, 7),
        ("invert=1\ninvert=2\n", 13, 7),
        ("invert=1\ninvert=4\n", 13, 7),
        ("invert=1\ninvert=\n", 13, 7),
        ("invert=1\n\n", 13, 7),
        ("invert=4\ninvert=1\n", 2, 6),
        ("invert=01\ninvert=1\n", 13, 6),
        ("invert=1\ninvert=1\nwindow=2\n", 13, 7),
    ] {
        assert_eq!(both(lines), both_refused(number, at), "{lines:?}");
    }
}

#[test]
fn invert_lines_out_of_place() {
    for invert in ["invert=1\n", "invert=0\n", "invert=4\n", "invert=\n"] {
        // Only line 6 is the place, whether or not the line stands there too.
        for line in [1, 2, 3, 4, 5, 7, 8, 9, 10, 11] {
            assert_eq!(encoded(&put(SHEET, line, invert)), refusal(13, line));
        }
        for line in [1, 2, 3, 4, 5, 7, 8, 9, 10] {
            assert_eq!(expanded(&put(LIST, line, invert)), refusal(13, line));
        }
        for line in [1, 2, 3, 4, 5, 8, 9, 10] {
            let sheet = put(&put(SHEET, 6, "invert=2\n"), line, invert);
            assert_eq!(encoded(&sheet), refusal(13, line));
            let list = put(&put(LIST, 6, "invert=2\n"), line, invert);
            assert_eq!(expanded(&list), refusal(13, line));
        }
        // In the place of a chain line, and after one chain line too many.
        let sheet = SHEET.replace("chain=4\n", invert);
        assert_eq!(encoded(&sheet), refusal(13, 5));
        let list = LIST.replace("chain=4\n", invert);
        assert_eq!(expanded(&list), refusal(13, 5));
        let more = format!("chain=2\n{invert}");
        assert_eq!(both(&more), both_refused(13, 6));
    }
    // A line of the other text after it.
    assert_eq!(encoded(&put(LIST, 6, "invert=1\n")), refusal(13, 7));
    assert_eq!(expanded(&put(SHEET, 6, "invert=1\n")), refusal(13, 7));
}

#[test]
fn texts_that_end_at_the_invert_line() {
    for (end, number, at) in [
        ("invert=1", 13, 6),
        ("invert=", 13, 6),
        ("inver", 13, 6),
        ("invert=4", 13, 6),
        ("invert=4\n", 2, 6),
        ("invert=1\n", 13, 7),
        ("invert=0\n", 13, 7),
        ("invert=1\n\n", 13, 7),
        ("invert=1\ni", 13, 7),
        ("invert=1\nwindow=2", 13, 7),
        ("invert=1\nwindow=2\n", 13, 8),
    ] {
        let text = format!("{HEAD}{end}");
        assert_eq!(encoded(&text), refusal(number, at), "{end:?}");
        assert_eq!(expanded(&text), refusal(number, at), "{end:?}");
    }
    assert_eq!(
        encoded(&format!("{HEAD}invert=1\ndepth=1\n")),
        refusal(3, 0)
    );
    let list = format!("{HEAD}invert=1\nstop=0x\nslices=1\n");
    assert_eq!(expanded(&list), refusal(14, 0));
}

#[test]
fn lines_before_and_behind_an_invert_line() {
    let sheet = put(SHEET, 6, "invert=1\n");
    for (old, new, number, at) in [
        ("cells=3\n", "cells=0\n", 1, 1),
        ("taps=6\n", "taps=3\n", 1, 2),
        ("chains=2\n", "chains=65\n", 2, 3),
        ("chain=4\n", "chain=8\n", 2, 5),
        ("chain=4\n", "chain=0\n", 2, 5),
        ("depth=2\n", "depth=0\n", 3, 7),
        ("depth=2\n", "depth=02\n", 13, 7),
        ("depth=2\n", "depth=3\n", 3, 0),
        ("slice=x1\n", "slice=x\n", 13, 9),
    ] {
        assert_eq!(encoded(&sheet.replace(old, new)), refusal(number, at));
        // An invert line out of range is refused unless an earlier line is.
        let wrong = sheet.replace("invert=1\n", "invert=4\n");
        let wanted = if (1..6).contains(&at) {
            refusal(number, at)
        } else {
            refusal(2, 6)
        };
        assert_eq!(encoded(&wrong.replace(old, new)), wanted);
    }
    let list = put(LIST, 6, "invert=2\n");
    for (old, new, number, at) in [
        ("stop=0x\n", "stop=xx\n", 5, 7),
        ("stop=0x\n", "stop=0\n", 13, 7),
        ("slices=4\n", "slices=0\n", 3, 8),
        ("slices=4\n", "slices=5\n", 14, 4),
        ("seed=3\nseed=3\n", "seed=3\nseed=g\n", 13, 10),
        ("seed=3\nseed=3\n", "seed=3\nseed=8\n", 10, 1),
        ("seed=3\nseed=3\n", "seed=3\nseed=2\n", 11, 1),
    ] {
        assert_eq!(expanded(&list.replace(old, new)), refusal(number, at));
    }
}

#[test]
fn widest_slices_inverted() {
    let mut text = String::from("cells=64\ntaps=8000000000000000\nchains=64\n");
    for cell in 0..64 {
        text.push_str(&format!("chain={:x}\n", 1u64 << cell));
    }
    text.push_str("invert=ffffffffffffffff\n");
    // Only cell 63 holds 0; cell 0 gets that 0, and chain 1 then delivers the stop's 1.
    let slice = format!("slice={}1\n", "0".repeat(63));
    let sheet = format!("{text}depth=1\n{slice}");
    let list = String::from_utf8(encode_text(sheet.as_bytes())).unwrap();
    let stop = format!("stop=1{}\n", "x".repeat(63));
    let wanted = format!("{text}{stop}slices=1\nseed=7fffffffffffffff\n");
    assert_eq!(list, wanted);
    assert_eq!(expanded(&list), slice);
    // With taps in all cells cell 0 gets a 1, and the stop doesn't follow: the slice can only
    // be the last.
    let (old, new) = ("taps=8000000000000000", "taps=ffffffffffffffff");
    let encode = |text: &str| String::from_utf8(encode_text(text.as_bytes())).unwrap();
    assert_eq!(encode(&sheet.replace(old, new)), list.replace(old, new));
    let twice = format!("{sheet}{slice}");
    let seeds = "seed=7fffffffffffffff\n".repeat(2);
    let wanted = format!("{text}{stop}slices=2\n{seeds}");
    assert_eq!(encode(&twice), wanted);
    assert_eq!(encode(&twice.replace(old, new)), refusal(8, 0));
}

#[test]
fn small_sheets_against_brute_force() {
    let mut random = Random(57);
    let (mut accepted, mut changed, mut limited) = (0, 0, 0);
    for _ in 0..1000 {
        let (mut core, spec, bits) = small(&mut random, 6, 10);
        core.masks.truncate(4);
        let chains = core.masks.len();
        let within = (1 << chains) - 1;
        let spec: Vec<u64> = spec.iter().map(|places| places & within).collect();
        let bits: Vec<u64> = bits.iter().map(|values| values & within).collect();
        let (head, slices) = (head(&core), slice_lines(chains, &spec, &bits));
        let without = encoded(&format!("{head}depth=1\n{slices}"));
        for invert in 0..=within {
            let window = ["", "window=1\n", "window=2\n"][random.below(3) as usize];
            let lines = format!("invert={invert:x}\n{window}");
            let list = encoded(&format!("{head}{lines}depth=1\n{slices}"));
            let plain = list.replace(&lines, "");
            assert!(invert > 0 || !window.is_empty() || plain == without);
            changed += usize::from(window.is_empty() && plain != without);
            if list.starts_with("refused=") {
                continue;
            }
            accepted += 1;
            limited += usize::from(!window.is_empty());
            assert!(list.starts_with(&format!("{head}{lines}stop=")));
            agree(&expanded(&list), &slices);
        }
    }
    assert!(accepted > 1000 && changed > 500 && limited > 300);
}

/// Asserts that the slice lines have each 0 and 1 of the others.
fn agree(delivered: &str, wanted: &str) {
    assert_eq!(delivered.len(), wanted.len());
    for (came, asked) in delivered.bytes().zip(wanted.bytes()) {
        assert!(came == asked || (asked == b'x' && b"01".contains(&came)));
    }
}
