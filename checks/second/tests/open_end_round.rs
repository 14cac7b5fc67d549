// Holds tests of sets whose last window goes without its stop, together with the expanding:
// all small sets against all lists of states, 33 to 64 cells, and the text of both programs.
// Follows document 02, R-5.

mod common;

use common::cores::{small, Core};
use common::every::{all_cores, all_rows, all_sets};
use common::texts::{encoded, expanded, head, put, refusal, slice_lines, LIST, SHEET};
use common::Random;
use second::*;

/// All lists of states that are expanded to so many slices, with these slices.
fn all_expansions(core: &Core, limit: u64, total: usize) -> Vec<(usize, Vec<u64>)> {
    let states: Vec<u64> = (0..1 << core.cells).collect();
    let mut found = Vec::new();
    // Each seed delivers a slice or more.
    for length in 1..=total {
        for seeds in all_rows(&states, length) {
            if let Ok(slices) = core.expand(limit, total as u64, &seeds) {
                found.push((length, slices));
            }
        }
    }
    found
}

/// True if the slices agree with the set.
fn all_agree(spec: &[u64], bits: &[u64], slices: &[u64]) -> bool {
    let mut all = spec.iter().zip(bits).zip(slices);
    spec.len() == slices.len() && all.all(|((&s, &b), &v)| agrees(s, b, v))
}

#[test]
fn all_small_sets_against_all_lists() {
    let (mut cut, mut not_cut) = (0, 0);
    for (cells, chains, inverts) in [(2, 1, &[0, 1][..]), (2, 2, &[0]), (3, 1, &[0])] {
        let sets = [1, 2, 3].map(|slices| all_sets(chains, slices));
        for core in all_cores(cells, chains, inverts) {
            for (limit, total) in (1..4).flat_map(|limit| (1..4).map(move |n| (limit, n))) {
                let lists = all_expansions(&core, limit, total);
                for (spec, bits) in &sets[total - 1] {
                    let fitting = lists.iter().filter(|list| all_agree(spec, bits, &list.1));
                    let fewest = fitting.map(|list| list.0).min();
                    // A set is refused exactly when no list delivers it, and its list is one
                    // of the shortest.
                    let answer = core.set(limit, spec, bits);
                    assert_eq!(answer.as_ref().ok().map(Vec::len), fewest);
                    match answer {
                        Ok(seeds) => {
                            let slices = core.expand(limit, total as u64, &seeds).unwrap();
                            assert!(all_agree(spec, bits, &slices));
                            cut += 1;
                        }
                        Err(refused) => {
                            assert!(refused.number == 8 && refused.value < total as u64);
                            not_cut += 1;
                        }
                    }
                }
            }
        }
    }
    assert!(cut > 10_000 && not_cut > 10_000, "{cut} {not_cut}");
}

#[test]
fn state_0_is_the_last_seed_where_it_can_be() {
    let mut random = Random(61);
    let (mut zero, mut other, mut single) = (0, 0, 0);
    for _ in 0..4000 {
        let (mut core, spec, bits) = small(&mut random, 12, 12);
        core.invert = random.below(1 << core.masks.len());
        let limit = random.between(1, 14);
        let Ok(seeds) = core.set(limit, &spec, &bits) else {
            continue;
        };
        let length = *core.lengths(spec.len(), &seeds).last().unwrap();
        let start = spec.len() - length;
        let (places, values) = (&spec[start..], &bits[start..]);
        let covers = core.covers_last(limit, places, values, 0);
        let last = *seeds.last().unwrap();
        assert_eq!(covers, last == 0);
        assert!((0..last).all(|state| !core.covers_last(limit, places, values, state)));
        zero += usize::from(covers);
        other += usize::from(!covers);
        // Given singly, the window closes with its stop, and its seed is no lower.
        if let Ok(seed) = core.window(limit, places, values) {
            assert!(seed > 0 && seed >= last);
            single += usize::from(seed > last);
        }
    }
    let counts = [zero, other, single];
    assert!(counts.iter().all(|&sets| sets > 300), "{counts:?}");
}

#[test]
fn last_windows_of_wide_registers() {
    let mut random = Random(62);
    let (mut compared, mut high, mut uncovered) = (0, 0, 0);
    for round in 0..600 {
        let chains = random.between(2, 12);
        let cells = random.between(33, 64);
        let count = random.between(1, 12);
        let (spec, bits) = random.slices(count, chains, [5, 15, 60][round % 3]);
        let core = Core {
            cells,
            taps: random.taps(cells),
            invert: random.below(1 << chains),
            masks: random.masks(cells, chains),
            stop: random.stop(chains, 20),
        };
        // The states from 0 on in rising order, as far as it goes.
        let covers = |&state: &u64| core.covers_last(count, &spec, &bits, state);
        let lowest = (0..1 << 13).find(covers);
        match (core.set(count, &spec, &bits), lowest) {
            (Ok(seeds), Some(state)) => {
                assert_eq!(seeds, [state]);
                compared += 1;
            }
            (Ok(seeds), None) if seeds.len() == 1 => {
                assert!(seeds[0] >= 1 << 13 && covers(&seeds[0]));
                high += 1;
            }
            (Ok(_), None) | (Err(Refused { number: 8, .. }), None) => uncovered += 1,
            other => panic!("{other:?}"),
        }
    }
    let counts = [compared, high, uncovered];
    assert!(counts.iter().all(|&sets| sets > 60), "{counts:?}");
}

#[test]
fn sheets_of_r() {
    let head: String = SHEET.split_inclusive('\n').take(5).collect();
    // State 2, before 5, would close the slice; state 0 needs no stop.
    let list = encoded(&format!("{head}depth=1\nslice=0x\n"));
    assert_eq!(list, format!("{head}stop=1x\nslices=1\nseed=0\n"));
    assert_eq!(expanded(&list), "slice=00\n");
    let list = encoded(&format!("{head}depth=2\nslice=1x\nslice=0x\n"));
    assert_eq!(list, format!("{head}stop=11\nslices=2\nseed=1\n"));
    assert_eq!(expanded(&list), "slice=10\nslice=00\n");
    // Documents 01 and 02's set with the stop 01, as a list.
    let list = format!("{head}stop=01\nslices=2\nseed=1\n");
    assert_eq!(expanded(&list), "slice=10\nslice=00\n");
}

#[test]
fn lists_with_other_totals() {
    for (window, slices, seeds, wanted) in [
        ("", 3, "seed=3\nseed=3\n", Ok("10 11 10")),
        ("", 2, "seed=3\nseed=3\n", Err((14, 2))),
        ("", 1, "seed=3\nseed=3\n", Err((14, 2))),
        ("", 5, "seed=3\nseed=3\n", Err((14, 4))),
        ("", 1, "seed=3\n", Ok("10")),
        ("", 3, "seed=3\n", Err((14, 2))),
        ("", 2, "seed=3\nseed=2\n", Err((11, 1))),
        ("", 2, "seed=3\nseed=8\n", Err((10, 1))),
        ("window=1\n", 1, "seed=3\n", Ok("10")),
        ("window=1\n", 2, "seed=3\n", Err((12, 0))),
        ("window=1\n", 2, "seed=1\nseed=3\n", Ok("10 10")),
        ("window=1\n", 2, "seed=3\nseed=1\n", Err((12, 0))),
        ("window=1\n", 3, "seed=1\nseed=3\n", Err((12, 1))),
        ("window=2\n", 4, "seed=3\n", Err((14, 2))),
        ("invert=1\n", 2, "seed=0\n", Ok("10 10")),
        ("invert=1\nwindow=1\n", 2, "seed=0\n", Err((12, 0))),
        ("invert=2\n", 2, "seed=0\n", Err((11, 0))),
    ] {
        let list = put(LIST, 6, window).replace("slices=4", &format!("slices={slices}"));
        let list = list.replace("seed=3\nseed=3\n", seeds);
        let wanted = match wanted {
            Ok(texts) => texts.split(' ').map(|s| format!("slice={s}\n")).collect(),
            Err((number, at)) => refusal(number, at),
        };
        assert_eq!(expanded(&list), wanted, "{list:?}");
    }
}

#[test]
fn small_sheets_there_and_back() {
    let mut random = Random(63);
    let mut accepted = 0;
    for _ in 0..3000 {
        let (core, spec, bits) = small(&mut random, 7, 10);
        let chains = core.masks.len();
        let window = ["", "window=1\n", "window=2\n", "window=5\n"][random.below(4) as usize];
        let invert = format!("invert={:x}\n", random.below(1 << chains));
        let lines = slice_lines(chains, &spec, &bits);
        let sheet = format!("{}{invert}{window}depth=1\n{lines}", head(&core));
        // The brute force prints the same.
        let list = encoded(&sheet);
        if list.starts_with("refused=") {
            continue;
        }
        accepted += 1;
        let delivered = expanded(&list);
        assert_eq!(delivered.len(), lines.len());
        let mut pairs = delivered.bytes().zip(lines.bytes());
        assert!(pairs.all(|(came, asked)| came == asked || asked == b'x'));
    }
    assert!(accepted > 1000, "{accepted}");
}
