// Holds tests of the window that ends a set: examples worked by hand, and all small sets
// against all cuttings. open_end_list.rs has the expanding.
// Follows document 02, R-5.

mod common;

use common::cores::{free, Core};
use common::every::{all_cores, all_sets};
use common::{one, refused, set, LIMIT};
use second::*;

/// Register R of document 01 with the stop 01.
fn r() -> Core {
    Core {
        cells: 3,
        taps: 6,
        invert: 0,
        masks: vec![1, 4],
        stop: one("01"),
    }
}

/// The seeds of a set, by the search and by the brute force.
fn seeds(core: &Core, limit: u64, spec: &[u64], bits: &[u64]) -> Result<Vec<u64>, Refused> {
    let answer = core.set(limit, spec, bits);
    let found = core.brute_set(limit, spec, bits).unwrap();
    assert!(found.rule_is_best(spec.len()));
    match found.fewest {
        Some(fewest) => assert_eq!((&answer, found.seeds.len()), (&Ok(found.seeds), fewest)),
        None => assert_eq!(answer, refused(8, found.longest_start as u64)),
    }
    answer
}

#[test]
fn sets_of_r() {
    // The states 1, 2, 5, 3, 7, 6, 4 deliver 10, 00, 11, 10, 11, 01, 01 and state 0 00.
    for (texts, wanted) in [
        (&["1x", "0x"][..], Ok(&[1][..])),
        (&["10"], Ok(&[1])),
        (&["10", "x1"], Ok(&[3])),
        (&["xx", "xx"], Ok(&[0])),
        (&["11", "xx"], Ok(&[5])),
        (&["0x", "1x"], Ok(&[2])),
        (&["01"], refused(8, 0)),
        (&["1x", "01"], refused(8, 1)),
        (&["0x", "01"], refused(8, 0)),
        // 1x, 0x is a start that only an open end would cut.
        (&["1x", "0x", "01"], refused(8, 1)),
        // Seed 7 closes the first slice, seed 3 the first two.
        (&["11", "00"], Ok(&[7, 0])),
        (&["10", "11", "00"], Ok(&[3, 0])),
        // No state delivers 00, 00, 11, and none closes 00 or 00, 00.
        (&["11", "00", "00"], Ok(&[7, 0])),
        (&["11", "00", "00", "11"], refused(8, 1)),
    ] {
        let (spec, bits) = set(texts);
        let answer = seeds(&r(), LIMIT, &spec, &bits);
        assert_eq!(answer, wanted.map(<[u64]>::to_vec), "{texts:?}");
    }
}

#[test]
fn a_window_given_singly_keeps_its_stop() {
    for (texts, wanted) in [
        (&["1x", "0x"][..], refused(7, 0)),
        (&["10"], refused(7, 0)),
        (&["xx", "xx"], Ok(3)),
        (&["11", "xx"], refused(7, 0)),
        (&["00"], refused(7, 0)),
    ] {
        let (spec, bits) = set(texts);
        assert_eq!(r().window(LIMIT, &spec, &bits), wanted);
        assert_eq!(r().brute_window(LIMIT, &spec, &bits), Some(wanted));
    }
}

#[test]
fn the_last_window_keeps_to_the_limit() {
    // A window closes after 5 slices at most, by seed 1; state 0 never stops.
    for (limit, count, closing) in [
        (256, 256, 0),
        (256, 257, 1),
        (256, 261, 1),
        (256, 262, 2),
        (256, 300, 9),
        (7, 7, 0),
        (7, 8, 1),
        (7, 12, 1),
        (7, 13, 2),
    ] {
        let wanted = [vec![1; closing], vec![0]].concat();
        let answer = seeds(&r(), limit, &free(count), &free(count));
        assert_eq!(answer, Ok(wanted.clone()), "{limit} {count}");
        assert!(delivers(&r(), limit, count, &wanted));
        let mut short = vec![9; closing];
        let answer = r().set_into(limit, &free(count), &free(count), &mut short);
        assert_eq!(answer, refused(9, closing as u64 + 1));
        assert_eq!(short, vec![9; closing]);
    }
    // Each state stops at once or never: a set beyond the limit can't be cut.
    let core = Core {
        cells: 1,
        taps: 1,
        invert: 0,
        masks: vec![1],
        stop: (1, 1),
    };
    for limit in [1, 2, 255, 256] {
        assert_eq!(seeds(&core, limit, &free(limit), &free(limit)), Ok(vec![0]));
        let more = free(limit + 1);
        assert_eq!(seeds(&core, limit, &more, &more), refused(8, 0));
    }
}

/// True if the seeds are expanded to so many slices.
fn delivers(core: &Core, limit: u64, count: u64, seeds: &[u64]) -> bool {
    let slices = core.expand(limit, count, seeds);
    slices.is_ok_and(|slices| slices.len() as u64 == count)
}

/// True if the state's slices agree with the window, no stop among them, and the stop is next
/// or the window is the last of its set.
fn fits(core: &Core, spec: &[u64], bits: &[u64], state: u64, last: bool) -> bool {
    let mut states = vec![state];
    for t in 0..spec.len() {
        states.push(step(core.cells, core.taps, states[t]));
    }
    let slices = states.iter().map(|&at| slice(&core.masks, core.invert, at));
    let mut stops = slices.clone().map(|v| v & core.stop.0 == core.stop.1);
    let mut pairs = spec.iter().zip(bits).zip(slices);
    pairs.all(|((s, b), v)| v & s == *b)
        && !stops.by_ref().take(spec.len()).any(|stop| stop)
        && (last || stops.next() == Some(true))
}

/// `table[start][end]`: the lowest state that covers the window from `start` to `end`, which
/// closes unless `open` and it ends the set.
fn lowest(core: &Core, spec: &[u64], bits: &[u64], open: bool) -> Vec<Vec<Option<u64>>> {
    let all = spec.len();
    let window = |start: usize, end: usize| {
        let (places, values) = (&spec[start..end], &bits[start..end]);
        let mut states = 0..1 << core.cells;
        states.find(|&state| fits(core, places, values, state, open && end == all))
    };
    let row = |start: usize| (0..=all).map(move |end| (start, end));
    let rows = (0..all).map(row);
    rows.map(|row| {
        row.map(|(start, end)| {
            if end > start {
                window(start, end)
            } else {
                None
            }
        })
        .collect()
    })
    .collect()
}

/// The fewest windows over all ways to cut the first `count` slices: bit i of a way is 1 if
/// a window ends after slice i.
fn fewest(table: &[Vec<Option<u64>>], limit: usize, count: usize) -> Option<u32> {
    if count == 0 {
        return Some(0);
    }
    let ways = (1u32 << (count - 1))..1 << count;
    let covered = |way: &u32| {
        let ends = (1..=count).filter(|end| way >> (end - 1) & 1 == 1);
        let starts = [0].into_iter().chain(ends.clone());
        let mut windows = starts.zip(ends);
        windows.all(|(start, end)| end - start <= limit && table[start][end].is_some())
    };
    ways.filter(covered).map(u32::count_ones).min()
}

/// The seeds of the longest windows in turn, or the start that has none.
fn longest(table: &[Vec<Option<u64>>], limit: usize) -> Result<Vec<u64>, u64> {
    let (mut seeds, mut start) = (Vec::new(), 0);
    while start < table.len() {
        let ends = start + 1..=table.len().min(start + limit);
        let mut found = ends.rev().filter(|&end| table[start][end].is_some());
        let end = found.next().ok_or(start as u64)?;
        seeds.extend(table[start][end]);
        start = end;
    }
    Ok(seeds)
}

/// Compares a set's answers with all cuttings. The number of seeds with and without an open
/// end, if the set can be cut so.
fn judged(core: &Core, limit: u64, spec: &[u64], bits: &[u64]) -> (Option<u32>, Option<u32>) {
    let most = limit as usize;
    let all = spec.len();
    let open = lowest(core, spec, bits, true);
    let closing = lowest(core, spec, bits, false);
    let best = fewest(&open, most, all);
    let start = (0..=all).rfind(|&count| fewest(&closing, most, count).is_some());
    let found = core.brute_set(limit, spec, bits).unwrap();
    assert_eq!(found.fewest.map(|windows| windows as u32), best);
    assert_eq!(Some(found.longest_start), start);
    let answer = seeds(core, limit, spec, bits);
    let wanted = longest(&open, most);
    assert_eq!(answer.clone().map_err(|refused| refused.value), wanted);
    match &answer {
        Ok(seeds) => assert_eq!(Some(seeds.len() as u32), best),
        Err(refused) => assert_eq!((best, Some(refused.value as usize)), (None, start)),
    }
    (best, fewest(&closing, most, all))
}

#[test]
fn all_small_sets_against_all_cuttings() {
    let (mut same, mut fewer, mut newly_cut, mut not_cut) = (0, 0, 0, 0);
    // Cells, chains, masks of inverted chains, most slices.
    for (cells, chains, inverts, most) in [
        (1, 1, &[0, 1][..], 5),
        (2, 1, &[0, 1], 5),
        (3, 1, &[0, 1], 4),
        (2, 2, &[0, 2], 2),
        (3, 2, &[1], 2),
    ] {
        let sets: Vec<_> = (1..=most)
            .flat_map(|slices| all_sets(chains, slices))
            .collect();
        for core in all_cores(cells, chains, inverts) {
            for (spec, bits) in &sets {
                for limit in 1..=most as u64 {
                    match judged(&core, limit, spec, bits) {
                        (None, _) => not_cut += 1,
                        (Some(_), None) => newly_cut += 1,
                        (Some(open), Some(closing)) if open < closing => fewer += 1,
                        (open, closing) => {
                            assert_eq!(open, closing);
                            same += 1;
                        }
                    }
                }
            }
        }
    }
    let counts = [same, fewer, newly_cut, not_cut];
    assert!(counts.iter().all(|&sets| sets > 3000), "{counts:?}");
}
