// The sets that are measured: 64 cells, random masks and slices, and a set of full slices that a run of the register delivers.

use crate::case::{Ask, Case, NONE_INVERTED};
use crate::random::Random;
use seeds::LONGEST_WINDOW;

pub const TAPS: u64 = 0xd800_0000_0000_0000;

/// One set: what its slices are made from.
#[derive(Clone, Copy, Debug, PartialEq)]
pub struct Kind {
    pub chains: usize,
    pub percent: u64,
    pub clustered: bool,
    pub slices: usize,
}

/// The chains of the sets of 1,024 slices.
const CHAINS: [usize; 3] = [20, 32, 64];
/// The densities of these sets, from dense to sparse: where a column is stopped, sparser sets take it longer.
const PERCENT: [u64; 5] = [30, 10, 5, 2, 1];
/// The lengths of further sets.
const LENGTHS: [usize; 3] = [256, 512, 2_048];

/// All sets of random slices, in the order in which they are measured.
fn kinds() -> Vec<Kind> {
    let mut kinds = Vec::new();
    for clustered in [false, true] {
        for chains in CHAINS {
            for percent in PERCENT {
                kinds.push(Kind {
                    chains,
                    percent,
                    clustered,
                    slices: 1_024,
                });
            }
        }
    }
    for percent in [5, 1] {
        for slices in LENGTHS {
            kinds.push(Kind {
                chains: 64,
                percent,
                clustered: false,
                slices,
            });
        }
    }
    kinds
}

/// All sets, in the order in which they are measured; without a kind, the set of full slices.
pub fn all() -> impl Iterator<Item = Option<Kind>> {
    kinds().into_iter().map(Some).chain([None])
}

/// The set of a kind, or that of full slices.
pub fn case(kind: Option<Kind>) -> Result<Case, String> {
    kind.map_or_else(|| Ok(full_slices()), set)
}

/// How dense a slice is, in hundredths. In a clustered set, runs of 8 slices with four times the density stand before 24 slices of x.
fn density(kind: Kind, place: usize) -> u64 {
    match (kind.clustered, place % 32) {
        (false, _) => kind.percent,
        (true, 0..8) => (4 * kind.percent).min(100),
        (true, _) => 0,
    }
}

/// The set with the stop slice by the steps: the masks come from the generator first, then the slices.
pub fn set(kind: Kind) -> Result<Case, String> {
    let begun = kind.chains as u64 * 1_000 + kind.percent + u64::from(kind.clustered) * 500;
    let mut random = Random(begun);
    let mut case = Case {
        ask: Ask::Set,
        cells: 64,
        taps: TAPS,
        window_limit: LONGEST_WINDOW,
        masks: (0..kind.chains).map(|_| random.word().max(1)).collect(),
        stop: (0, 0),
        specified: Vec::new(),
        bits: Vec::new(),
    };
    for place in 0..kind.slices {
        let specified = random.sparse(kind.chains, density(kind, place));
        case.specified.push(specified);
        case.bits.push(random.word() & specified);
    }
    case.stop = stop_by_steps(&case)?;
    Ok(case)
}

/// The stop slice of document 01's steps.
pub fn stop_by_steps(case: &Case) -> Result<(u64, u64), String> {
    second::stop_slice(case.masks.len() as u64, &case.specified, &case.bits)
        .map_err(|refused| format!("a set has no stop slice: refused by {}", refused.number))
}

/// 300 full slices of 57 chains from one run of the register, with a stop slice of six positions that the run does not show and under which the set can be cut.
pub fn full_slices() -> Case {
    let mut random = Random(57_300);
    let masks: Vec<u64> = (0..57).map(|_| random.word().max(1)).collect();
    let mut state = random.word();
    let mut bits = Vec::new();
    for _ in 0..300 {
        bits.push(second::slice(&masks, NONE_INVERTED, state));
        state = second::step(64, TAPS, state);
    }
    let mut case = Case {
        ask: Ask::Set,
        cells: 64,
        taps: TAPS,
        window_limit: LONGEST_WINDOW,
        masks,
        stop: (0, 0),
        specified: vec![(1 << 57) - 1; 300],
        bits,
    };
    while !cut_by(&case) {
        let positions = some_positions(&mut random, 57, 6);
        case.stop = (positions, random.word() & positions);
    }
    case
}

/// Whether no slice shows the stop, and the set can be cut.
fn cut_by(case: &Case) -> bool {
    let (positions, stop) = case.stop;
    let shown = case.bits.iter().any(|bits| bits & positions == stop);
    let mut out = vec![0; case.bits.len()];
    !shown
        && second::encode_set(
            64,
            case.taps,
            case.window_limit as u64,
            NONE_INVERTED,
            &case.masks,
            positions,
            stop,
            &case.specified,
            &case.bits,
            &mut out,
        )
        .is_ok()
}

/// So many positions of the chains.
pub fn some_positions(random: &mut Random, chains: usize, count: u32) -> u64 {
    let mut positions = 0u64;
    while positions.count_ones() < count {
        positions |= 1 << random.between(0, chains - 1);
    }
    positions
}
