// The sets whose stop slices are measured: random slices, and the patterns of some chains. A pattern has all its chains specified.

use crate::case::{Ask, Case};
use crate::random::Random;
use crate::sets::TAPS;
use seeds::LONGEST_WINDOW;

/// A set, by what its slices are.
pub struct StopSet {
    pub name: String,
    /// The percentage of specified bits, where the slices are random.
    pub percent: Option<u64>,
    pub case: Case,
}

/// The densities of the random slices.
pub const PERCENT: [u64; 4] = [1, 10, 50, 100];

/// The case that asks for the stop slice; all masks are 1, since only their number counts.
fn case(chains: usize, specified: Vec<u64>, bits: Vec<u64>) -> Case {
    Case {
        ask: Ask::Stop,
        cells: 64,
        taps: TAPS,
        window_limit: LONGEST_WINDOW,
        masks: vec![1; chains],
        stop: (0, 0),
        specified,
        bits,
    }
}

/// Slices in which each bit is specified with the same chance.
pub fn random(chains: usize, percent: u64, slices: usize) -> StopSet {
    let mut random = Random(64_000 + percent);
    let (mut specified, mut bits) = (Vec::new(), Vec::new());
    for _ in 0..slices {
        let positions = random.sparse(chains, percent);
        specified.push(positions);
        bits.push(random.word() & positions);
    }
    StopSet {
        name: format!("{percent} % specified"),
        percent: Some(percent),
        case: case(chains, specified, bits),
    }
}

/// All patterns of the first chains, in any order; the other chains are x.
pub fn patterns(chains: usize, first: usize) -> StopSet {
    let mut bits: Vec<u64> = (0..1 << first).collect();
    Random(first as u64).shuffle(&mut bits);
    let name = match first == chains {
        true => "all patterns".to_string(),
        false => format!("all patterns of {first} chains, x in the others"),
    };
    StopSet {
        name,
        percent: None,
        case: case(chains, vec![(1 << first) - 1; bits.len()], bits),
    }
}

/// All patterns but the last, in any order, with repeats up to so many slices. A repeat has a 1 in the first chain: so the steps set a 0 there, away from the last pattern, and end with a slice in.
pub fn all_but_last(chains: usize, slices: usize) -> StopSet {
    let last = (1 << chains) - 1;
    let mut random = Random(last);
    let mut bits: Vec<u64> = (0..last).collect();
    let again = slices - bits.len();
    bits.extend((0..again).map(|_| 2 * random.below(last / 2) + 1));
    random.shuffle(&mut bits);
    StopSet {
        name: format!("all patterns but the last, {again} repeats with a 1 first"),
        percent: None,
        case: case(chains, vec![last; slices], bits),
    }
}

/// All sets, in the order in which they are measured.
pub fn sets() -> Vec<StopSet> {
    let mut sets: Vec<StopSet> = PERCENT.map(|percent| random(64, percent, 2_048)).into();
    sets.extend([patterns(64, 11), patterns(11, 11), all_but_last(10, 2_048)]);
    sets
}
