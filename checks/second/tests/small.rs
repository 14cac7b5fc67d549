// Holds tests of the exact search against the brute force on small random sets.
// Follows document 01, "Covering and cutting".

mod common;

use common::cores::Core;
use common::{refused, Random, LIMIT};
use second::*;

struct Case {
    core: Core,
    spec: Vec<u64>,
    bits: Vec<u64>,
}

fn case(random: &mut Random, most_cells: u64, most_slices: u64) -> Case {
    let cells = random.between(1, most_cells);
    let chains = random.between(1, 9);
    let share = [0, 5, 15, 30, 60, 100][random.below(6) as usize];
    let stop_share = [10, 40, 80][random.below(3) as usize];
    let count = random.between(1, most_slices);
    fixed_case(random, cells, chains, share, stop_share, count)
}

fn fixed_case(
    random: &mut Random,
    cells: u64,
    chains: u64,
    share: u64,
    stop_share: u64,
    count: u64,
) -> Case {
    let (spec, bits) = random.slices(count, chains, share);
    let core = Core {
        cells,
        taps: random.taps(cells),
        invert: 0,
        masks: random.masks(cells, chains),
        stop: random.stop(chains, stop_share),
    };
    Case { core, spec, bits }
}

/// Compares the whole answer of a set, its windows' seeds included, with the brute force.
/// True if the set can be cut.
fn same_set(Case { core, spec, bits }: &Case) -> bool {
    let found = core.brute_set(LIMIT, spec, bits).unwrap();
    let answer = core.set(LIMIT, spec, bits);
    assert!(found.rule_is_best(spec.len()));
    let Some(fewest) = found.fewest else {
        assert_eq!(answer, refused(8, found.longest_start as u64));
        return false;
    };
    assert_eq!(found.seeds.len(), fewest);
    assert_eq!(answer, Ok(found.seeds.clone()));
    let mut short = vec![7; fewest - 1];
    let answer = core.set_into(LIMIT, spec, bits, &mut short);
    assert_eq!(answer, refused(9, fewest as u64));
    assert_eq!(short, vec![7; fewest - 1]);
    let slices = core.expand(LIMIT, spec.len() as u64, &found.seeds).unwrap();
    assert_eq!(slices.len(), spec.len());
    for (place, &v) in slices.iter().enumerate() {
        assert!(agrees(spec[place], bits[place], v));
    }
    true
}

#[test]
fn sets_up_to_8_cells() {
    let mut random = Random(1);
    let cut = (0..10_000)
        .filter(|_| same_set(&case(&mut random, 8, 14)))
        .count();
    assert!(
        (1000..9000).contains(&cut),
        "{cut} sets of 10,000 can be cut"
    );
}

#[test]
fn sets_up_to_13_cells() {
    let mut random = Random(2);
    let cut = (0..300)
        .filter(|_| same_set(&case(&mut random, 13, 60)))
        .count();
    assert!(cut > 25, "{cut} sets of 300 can be cut");
}

#[test]
fn sets_of_16_cells() {
    let mut random = Random(6);
    let mut cut = 0;
    for round in 0..24 {
        let chains = random.between(4, 12);
        let share = [2, 8, 20][round % 3];
        let case = fixed_case(&mut random, 16, chains, share, 20, 100);
        cut += usize::from(same_set(&case));
    }
    assert!(cut > 4, "{cut} sets of 24 can be cut");
}

#[test]
fn sets_with_windows_of_up_to_256_slices() {
    let mut random = Random(7);
    let mut longest = 0;
    for round in 0..30 {
        let cells = random.between(8, 11);
        let count = random.between(200, 400);
        let case = fixed_case(&mut random, cells, 9, round % 2, 90, count);
        if same_set(&case) {
            longest = longest.max(first_window(&case));
        }
    }
    assert_eq!(longest, 256);
}

/// The number of slices in the first window of a set that can be cut.
fn first_window(Case { core, spec, bits }: &Case) -> usize {
    let mut longest = (1..=spec.len().min(256)).rev();
    let covered = |&m: &usize| core.window(LIMIT, &spec[..m], &bits[..m]).is_ok();
    longest.find(covered).unwrap_or(0)
}

#[test]
fn windows_up_to_10_cells() {
    let mut random = Random(3);
    let mut covered = 0;
    for _ in 0..12_000 {
        let Case { core, spec, bits } = case(&mut random, 10, 20);
        let exact = core.window(LIMIT, &spec, &bits);
        let brute = core.brute_window(LIMIT, &spec, &bits);
        assert_eq!(Some(exact), brute);
        covered += usize::from(exact.is_ok());
    }
    assert!(
        (1200..10_800).contains(&covered),
        "{covered} windows of 12,000 are covered"
    );
}

#[test]
fn stop_steps_leave_no_slice_equal_to_the_stop() {
    let mut random = Random(4);
    for _ in 0..2000 {
        let chains = random.between(1, 8);
        let count = random.between(1, 30);
        let share = random.between(0, 100);
        let (spec, bits) = random.slices(count, chains, share);
        let trace = stop_trace(chains, &spec, &bits).unwrap();
        let mut removed: Vec<usize> = trace.left.clone();
        for iteration in &trace.iterations {
            removed.extend(&iteration.removed);
        }
        removed.sort_unstable();
        assert_eq!(removed, (0..spec.len()).collect::<Vec<_>>());
        for place in 0..spec.len() {
            let equal = spec[place] & trace.stop_spec == trace.stop_spec
                && (bits[place] ^ trace.stop_bits) & trace.stop_spec == 0;
            assert_eq!(equal, trace.left.contains(&place));
        }
    }
}
