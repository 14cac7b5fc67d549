// Holds tests of the window line in the text of the two programs.
// Follows document 02, R-3, with R-5 for the last seed, and document 01, "Sheet and seed list".

mod common;

use common::cores::{counter, free, small, steps_before_stop};
use common::texts::{encoded, expanded, head, put, refusal, slice_lines, LIST, SHEET, SLICES};
use common::{refused, Random};
use second::*;

/// What both programs say of their text with `more` before line 6.
fn both(more: &str) -> (String, String) {
    (encoded(&put(SHEET, 6, more)), expanded(&put(LIST, 6, more)))
}

#[test]
fn a_window_line_of_the_sheet() {
    assert_eq!(encoded(SHEET), LIST);
    for limit in 2..=256 {
        let line = format!("window={limit}\n");
        let (list, slices) = both(&line);
        assert_eq!(list, put(LIST, 6, &line));
        assert_eq!(slices, SLICES);
        assert_eq!(expanded(&list), SLICES);
    }
    // Slice 0 agrees, slice 1 has 0 in chain 1: the states 1, 7, 1, 1.
    let list = encoded(&put(SHEET, 6, "window=1\n"));
    let head = "cells=3\ntaps=6\nchains=2\nchain=1\nchain=4\nwindow=1\n";
    let seeds = "seed=1\nseed=7\nseed=1\nseed=1\n";
    assert_eq!(list, format!("{head}stop=0x\nslices=4\n{seeds}"));
    assert_eq!(expanded(&list), "slice=10\nslice=11\nslice=10\nslice=10\n");
    // Seed 3 has its stop in slice 2.
    assert_eq!(expanded(&put(LIST, 6, "window=1\n")), refusal(12, 0));
}

#[test]
fn window_lines_out_of_range() {
    for number in ["0", "257", "258", "300", "999", "1000", "2048", "9999"] {
        let line = format!("window={number}\n");
        assert_eq!(both(&line), (refusal(3, 6), refusal(3, 6)), "{line:?}");
    }
}

/// Lines that are no window line, for want of form.
const OUT_OF_FORM: [&str; 47] = [
    "window=",
    "window=00",
    "window=01",
    "window=001",
    "window=002",
    "window=0256",
    "window=0000",
    "window=10000",
    "window=00002",
    "window=00000",
    "window=99999",
    "window=18446744073709551618",
    "window=+2",
    "window=-2",
    "window=-0",
    "window= 2",
    "window=2 ",
    "window =2",
    " window=2",
    "window=2 2",
    "window=\t2",
    "window=2\r",
    "window=2\0",
    "Window=2",
    "WINDOW=2",
    "window=a",
    "window=ff",
    "window=0x2",
    "window=2.",
    "window=2.0",
    "window=2,",
    "window=2_0",
    "window=2e1",
    "window:2",
    "window",
    "window2",
    "windows=2",
    "windo=2",
    "win=2",
    "w=2",
    "window==2",
    "window=2=2",
    "window=2x",
    "window=x",
    "window=\u{0662}",
    "=2",
    "",
];

#[test]
fn window_lines_out_of_form() {
    for line in OUT_OF_FORM {
        let wanted = (refusal(13, 6), refusal(13, 6));
        assert_eq!(both(&format!("{line}\n")), wanted, "{line:?}");
    }
    let long = format!("window={}2\n", "0".repeat(80));
    assert_eq!(both(&long), (refusal(13, 6), refusal(13, 6)));
    let head = SHEET.split("depth").next().unwrap().as_bytes();
    let text = [head, b"window=2\xff\n"].concat();
    assert_eq!(encode_text(&text), refusal(13, 6).as_bytes());
    assert_eq!(expand_text(&text), refusal(13, 6).as_bytes());
}

#[test]
fn window_lines_twice() {
    for (lines, number, at) in [
        ("window=2\nwindow=2\n", 13, 7),
        ("window=2\nwindow=3\n", 13, 7),
        ("window=256\nwindow=0\n", 13, 7),
        ("window=2\nwindow=\n", 13, 7),
        ("window=2\n\n", 13, 7),
        ("window=0\nwindow=2\n", 3, 6),
        ("window=257\nwindow=257\n", 3, 6),
        ("window=02\nwindow=2\n", 13, 6),
        ("window=2\nwindow=2\nwindow=2\n", 13, 7),
    ] {
        let wanted = (refusal(number, at), refusal(number, at));
        assert_eq!(both(lines), wanted, "{lines:?}");
    }
}

#[test]
fn window_lines_out_of_place() {
    for window in ["window=2\n", "window=256\n", "window=0\n", "window=\n"] {
        // Only line 6 is the place, whether or not the line stands there too.
        for line in [1, 2, 3, 4, 5, 7, 8, 9, 10, 11] {
            assert_eq!(encoded(&put(SHEET, line, window)), refusal(13, line));
        }
        for line in [1, 2, 3, 4, 5, 7, 8, 9, 10] {
            assert_eq!(expanded(&put(LIST, line, window)), refusal(13, line));
        }
        for line in [1, 2, 3, 4, 5, 8, 9, 10] {
            let sheet = put(&put(SHEET, 6, "window=2\n"), line, window);
            assert_eq!(encoded(&sheet), refusal(13, line));
            let list = put(&put(LIST, 6, "window=2\n"), line, window);
            assert_eq!(expanded(&list), refusal(13, line));
        }
        // In the place of a chain line, and after one chain line too many.
        let sheet = SHEET.replace("chain=4\n", window);
        assert_eq!(encoded(&sheet), refusal(13, 5));
        let list = LIST.replace("chain=4\n", window);
        assert_eq!(expanded(&list), refusal(13, 5));
        let more = format!("chain=2\n{window}");
        assert_eq!(both(&more), (refusal(13, 6), refusal(13, 6)));
    }
    // A line of the other text after it.
    assert_eq!(encoded(&put(LIST, 6, "window=2\n")), refusal(13, 7));
    assert_eq!(expanded(&put(SHEET, 6, "window=2\n")), refusal(13, 7));
}

#[test]
fn texts_that_end_at_the_window_line() {
    let head: String = SHEET.split_inclusive('\n').take(5).collect();
    for (end, number, at) in [
        ("", 13, 6),
        ("window=2", 13, 6),
        ("window=", 13, 6),
        ("windo", 13, 6),
        ("window=0", 13, 6),
        ("window=257", 13, 6),
        ("window=257\n", 3, 6),
        ("window=2\n", 13, 7),
        ("window=2\n\n", 13, 7),
        ("window=2\nw", 13, 7),
    ] {
        let text = format!("{head}{end}");
        assert_eq!(encoded(&text), refusal(number, at), "{end:?}");
        assert_eq!(expanded(&text), refusal(number, at), "{end:?}");
    }
    let sheet = format!("{head}window=2\ndepth=1\n");
    assert_eq!(encoded(&sheet), refusal(3, 0));
    let list = format!("{head}window=2\nstop=0x\nslices=1\n");
    assert_eq!(expanded(&list), refusal(14, 0));
}

#[test]
fn lines_before_and_behind_a_window_line() {
    let sheet = put(SHEET, 6, "window=2\n");
    for (old, new, number, at) in [
        ("cells=3\n", "cells=0\n", 1, 1),
        ("taps=6\n", "taps=3\n", 1, 2),
        ("chain=4\n", "chain=8\n", 2, 5),
        ("depth=2\n", "depth=0\n", 3, 7),
        ("depth=2\n", "depth=257\n", 3, 7),
        ("depth=2\n", "depth=02\n", 13, 7),
        ("depth=2\n", "depth=3\n", 3, 0),
        ("slice=x1\n", "slice=x\n", 13, 9),
    ] {
        assert_eq!(encoded(&sheet.replace(old, new)), refusal(number, at));
        // A window line out of range is refused unless an earlier line is.
        let wrong = sheet.replace("window=2\n", "window=0\n");
        let wanted = if (1..6).contains(&at) {
            refusal(number, at)
        } else {
            refusal(3, 6)
        };
        assert_eq!(encoded(&wrong.replace(old, new)), wanted);
    }
    let list = put(LIST, 6, "window=2\n");
    for (old, new, number, at) in [
        ("stop=0x\n", "stop=xx\n", 5, 7),
        ("stop=0x\n", "stop=0\n", 13, 7),
        ("slices=4\n", "slices=0\n", 3, 8),
        ("slices=4\n", "slices=5\n", 14, 4),
        ("seed=3\nseed=3\n", "seed=3\nseed=g\n", 13, 10),
        ("seed=3\nseed=3\n", "seed=3\nseed=8\n", 10, 1),
        ("seed=3\nseed=3\n", "seed=3\nseed=2\n", 11, 1),
    ] {
        assert_eq!(expanded(&list.replace(old, new)), refusal(number, at));
    }
}

#[test]
fn the_limit_leaves_the_depth_alone() {
    let core = counter();
    let slices = slice_lines(9, &free(256), &free(256));
    for (depth, at) in [(256, None), (255, Some(0)), (257, Some(14))] {
        for window in ["window=1\n", "window=2\n"] {
            let text = format!("{}{window}depth={depth}\n{slices}", head(&core));
            let list = encoded(&text);
            match at {
                Some(at) => assert_eq!(list, refusal(3, at)),
                None => assert!(list.contains(&format!("{window}stop=1xxxxxxxx\n"))),
            }
        }
    }
}

#[test]
fn lists_around_every_limit() {
    let core = counter();
    let before = steps_before_stop(&core);
    let head = head(&core);
    for limit in 1..=256 {
        let tail = |length: usize| {
            let seed = before[length];
            format!("stop=111111111\nslices={length}\nseed={seed:x}\n")
        };
        let run: Vec<u64> = before[1..=limit].iter().rev().copied().collect();
        let slices = slice_lines(9, &vec![0x1ff; limit], &run);
        let line = format!("window={limit}\n");
        assert_eq!(expanded(&format!("{head}{line}{}", tail(limit))), slices);
        let late = tail(limit + 1);
        assert_eq!(expanded(&format!("{head}{line}{late}")), refusal(12, 0));
        // Without the line the limit is 256.
        assert_eq!(expanded(&format!("{head}{}", tail(limit))), slices);
        let refused = expanded(&format!("{head}{late}")) == refusal(12, 0);
        assert_eq!(refused, limit == 256);
    }
}

/// Slices, each with its number, for which the stop slice steps give 111111111: 256 have 0 in
/// chain 1, 128 have 1 there and 0 in chain 2, and so on to a single one.
fn slices_for_the_stop() -> Vec<(u64, u64, usize)> {
    let slice = |chain: u32| {
        (
            0x1ff >> (9 - chain),
            0x1ff >> (10 - chain),
            1 << (9 - chain),
        )
    };
    (1..=9).map(slice).collect()
}

/// Cubes of one slice for which the steps give the counter's stop, and whose longest windows
/// are all of `limit` slices. None if 2,048 slices don't hold them.
fn cubes_of_full_windows(before: &[u64], limit: usize) -> Option<(Vec<u64>, Vec<u64>)> {
    let mut left = slices_for_the_stop();
    let (mut spec, mut bits) = (Vec::new(), Vec::new());
    while !left.is_empty() || spec.len() % limit != 0 {
        // The slice that the seed of a full window has here; a slice that agrees with it.
        let shown = before[limit - spec.len() % limit];
        let fits = |&(places, values, _): &(u64, u64, usize)| agrees(places, values, shown);
        let (mut places, mut values) = (0, 0);
        if let Some(found) = left.iter().rposition(fits) {
            (places, values, _) = left[found];
            left[found].2 -= 1;
            left.retain(|&(_, _, count)| count > 0);
        }
        spec.push(places);
        bits.push(values);
        if spec.len() > 2048 {
            return None;
        }
    }
    Some((spec, bits))
}

#[test]
fn cubes_and_their_text_at_every_limit() {
    let core = counter();
    let before = steps_before_stop(&core);
    let mut held = Vec::new();
    for limit in 1..=256 {
        let Some((spec, bits)) = cubes_of_full_windows(&before, limit) else {
            continue;
        };
        held.push(limit);
        let mut out = vec![9; spec.len() / limit];
        let (most, masks) = (limit as u64, &core.masks);
        let answer = encode_cubes(9, 0x108, most, 0, masks, 1, &spec, &bits, &mut out);
        assert_eq!(answer, Ok((0x1ff, 0x1ff, out.len())), "{limit}");
        // The last window goes without its stop, and a lower state may cover it.
        let (last, others) = out.split_last().unwrap();
        assert!(others.iter().all(|&seed| seed == before[limit]));
        let start = spec.len() - limit;
        let covers = |&state: &u64| core.covers_last(most, &spec[start..], &bits[start..], state);
        assert_eq!((0..512).find(covers), Some(*last));
        let mut short = vec![9; out.len() - 1];
        let answer = encode_cubes(9, 0x108, most, 0, masks, 1, &spec, &bits, &mut short);
        assert_eq!(answer, refused(9, out.len() as u64));
        let (head, window) = (head(&core), format!("window={limit}\n"));
        let tail = format!("stop=111111111\nslices={}\n", spec.len());
        let mut seeds = format!("seed={:x}\n", before[limit]).repeat(out.len() - 1);
        seeds.push_str(&format!("seed={last:x}\n"));
        let list = format!("{head}{window}{tail}{seeds}");
        let slices = slice_lines(9, &spec, &bits);
        let printed = encoded(&format!("{head}{window}depth=1\n{slices}"));
        assert_eq!(printed, list);
        let delivered = expanded(&list);
        assert_eq!(delivered.lines().count(), spec.len());
        // Without its line the list means 256, and the seeds stop before that.
        assert_eq!(expanded(&format!("{head}{tail}{seeds}")), delivered);
        if limit > 1 {
            let lower = format!("window={}\n", limit - 1);
            let list = format!("{head}{lower}{tail}{seeds}");
            assert_eq!(expanded(&list), refusal(12, 0));
        }
    }
    assert!(
        held.len() > 230 && held.ends_with(&[254, 255, 256]),
        "{held:?}"
    );
}

#[test]
fn a_sheet_without_the_line_means_256() {
    let core = counter();
    let before = steps_before_stop(&core);
    let (spec, bits) = cubes_of_full_windows(&before, 256).unwrap();
    let (head, slices) = (head(&core), slice_lines(9, &spec, &bits));
    let tail = format!("stop=111111111\nslices={}\n", spec.len());
    let seeds = format!("seed={:x}\n", before[256]).repeat(spec.len() / 256);
    let list = encoded(&format!("{head}depth=1\n{slices}"));
    assert_eq!(list, format!("{head}{tail}{seeds}"));
    let list = encoded(&format!("{head}window=256\ndepth=1\n{slices}"));
    assert_eq!(list, format!("{head}window=256\n{tail}{seeds}"));
    // The set can be cut under 255 only if other windows fit, and then into more of them.
    let list = encoded(&format!("{head}window=255\ndepth=1\n{slices}"));
    assert!(!list.contains(&format!("seed={:x}\n", before[256])));
}

#[test]
fn small_sheets_against_brute_force() {
    let mut random = Random(43);
    let (mut accepted, mut changed) = (0, 0);
    for _ in 0..3000 {
        let (core, spec, bits) = small(&mut random, 6, 10);
        let chains = core.masks.len();
        let (head, slices) = (head(&core), slice_lines(chains, &spec, &bits));
        let without = encoded(&format!("{head}depth=1\n{slices}"));
        for limit in [1, 2, 3, 4, 256] {
            let line = format!("window={limit}\n");
            let list = encoded(&format!("{head}{line}depth=1\n{slices}"));
            if list.starts_with("refused=") {
                changed += usize::from(list != without);
                assert!(limit < 256 || list == without);
                continue;
            }
            accepted += 1;
            let rest = list.strip_prefix(&format!("{head}{line}stop=")).unwrap();
            assert_eq!(expanded(&list).lines().count(), spec.len());
            let plain = format!("{head}stop={rest}");
            assert_eq!(expanded(&plain), expanded(&list));
            changed += usize::from(plain != without);
            assert!(limit < 256 || plain == without);
        }
    }
    assert!(accepted > 1500 && changed > 500, "{accepted} {changed}");
}
