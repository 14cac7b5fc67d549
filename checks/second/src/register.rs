// Holds the step of the register, the slice of a state and the two tests on a slice.
// Follows document 01, "Register and chains", and document 02, R-4 (inverted chains).

/// The number whose lowest `count` bits are 1; all 64 bits from a count of 64 on.
pub fn low_bits(count: u64) -> u64 {
    if count >= 64 {
        u64::MAX
    } else {
        (1 << count) - 1
    }
}

/// 1 if an odd number of bits are 1, else 0.
pub fn odd(word: u64) -> u64 {
    u64::from(word.count_ones() % 2)
}

/// The state after one step. Bits at or above `cells` count as no cells.
pub fn step(cells: u64, taps: u64, state: u64) -> u64 {
    let held = state & low_bits(cells);
    ((held << 1) | odd(held & taps)) & low_bits(cells)
}

/// The slice of a state as it comes out: chain j has weight 2^(j-1), and a chain named in
/// `invert` delivers the opposite bit. Masks after the 64th have no weight. A slice is the
/// chains' bits and no others, so a bit of `invert` beyond the chains changes nothing.
pub fn slice(masks: &[u64], invert: u64, state: u64) -> u64 {
    let mut all = 0;
    for (place, mask) in masks.iter().take(64).enumerate() {
        all |= (odd(mask & state) ^ (invert >> place & 1)) << place;
    }
    all
}

/// True if the slice `v` has the test slice's bit at each of its specified positions.
pub fn agrees(spec: u64, bits: u64, v: u64) -> bool {
    (v ^ bits) & spec == 0
}

/// True if the slice `v` shows the stop slice.
pub fn shows(stop_spec: u64, stop_bits: u64, v: u64) -> bool {
    (v ^ stop_bits) & stop_spec == 0
}
