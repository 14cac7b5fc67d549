// The stop slice of a set in Rust, without proofs: the slices still in are kept in a list. The set is not checked.

/// How many 0s and how many 1s there are at each position.
type Counts = [[usize; 2]; 64];

/// Counts the bits of the slices at the unset positions.
fn count(slices: &[(u64, u64)], unset: u64) -> Counts {
    let mut counts = [[0; 2]; 64];
    for &(specified, bits) in slices {
        let mut rest = specified & unset;
        while rest != 0 {
            let position = rest.trailing_zeros() as usize;
            counts[position][(bits >> position & 1) as usize] += 1;
            rest &= rest - 1;
        }
    }
    counts
}

/// The unset position and the bit with the greatest count; on a tie the leftmost position, and there the 0s before the 1s. None if no position is unset.
fn choose(counts: &Counts, unset: u64) -> Option<(usize, usize)> {
    let positions = (0..64).filter(|position| unset >> position & 1 == 1);
    let choices = positions.flat_map(|position| [(position, 0), (position, 1)]);
    // the last of the greatest is taken, hence the order from the right
    choices
        .rev()
        .max_by_key(|&(position, bit)| counts[position][bit])
}

/// The stop slice that the steps end with; none if slices are in then.
fn steps(all: u64, mut slices: Vec<(u64, u64)>) -> Option<(u64, u64)> {
    let (mut set, mut stop) = (0, 0);
    while !slices.is_empty() {
        let unset = all & !set;
        let (position, counted) = choose(&count(&slices, unset), unset)?;
        let bit = 1 - counted as u64;
        set |= 1 << position;
        stop |= bit << position;
        slices.retain(|&(specified, bits)| {
            specified >> position & 1 == 1 && bits >> position & 1 == bit
        });
    }
    Some((set, stop))
}

/// The smallest pattern that no fully specified slice has; none if all are taken.
fn spare(all: u64, specified: &[u64], bits: &[u64]) -> Option<u64> {
    let slices = specified.iter().zip(bits);
    let full = slices.filter(|(&specified, _)| specified == all);
    let mut taken: Vec<u64> = full.map(|(_, &bits)| bits).collect();
    taken.sort_unstable();
    taken.dedup();
    (0..=all).find(|&pattern| taken.get(pattern as usize) != Some(&pattern))
}

/// The stop slice's specified positions and bits; none if all patterns are taken.
pub fn stop(chains: usize, specified: &[u64], bits: &[u64]) -> Option<(u64, u64)> {
    let all = u64::MAX >> (64 - chains);
    let slices = specified.iter().copied().zip(bits.iter().copied());
    steps(all, slices.collect()).or_else(|| Some((all, spare(all, specified, bits)?)))
}
