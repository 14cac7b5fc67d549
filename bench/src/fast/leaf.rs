// The search of a small space: 64 members at a time, with one bit of a word for each.

use super::pattern::Pattern;
use super::space::{odd, Space};

/// How many vectors tell 64 members apart.
const VECTORS: usize = 6;

/// A word with every lane set.
const ALL: u64 = !0;

/// Lane i of word k is digit k of i.
const DIGITS: [u64; VECTORS] = [
    0xAAAA_AAAA_AAAA_AAAA,
    0xCCCC_CCCC_CCCC_CCCC,
    0xF0F0_F0F0_F0F0_F0F0,
    0xFF00_FF00_FF00_FF00,
    0xFFFF_0000_FFFF_0000,
    0xFFFF_FFFF_0000_0000,
];

/// How many vectors the space of a leaf has at most.
pub const LEAF_VECTORS: usize = 12;

/// How many words a leaf has for its rows.
const LEAF_WORDS: usize = 512;

/// The words of a leaf: for each row and each of its columns two. Members are numbered; the lanes of the first word go by the low six digits of the number, those of the second by the others.
pub type Words = [u64; LEAF_WORDS];

pub const NO_WORDS: Words = [0; LEAF_WORDS];

/// Whether a space is gone through 64 members at a time.
pub fn is_leaf(pattern: Pattern, free: usize) -> bool {
    (VECTORS..=LEAF_VECTORS).contains(&free) && pattern.columns >= 2
}

/// The parities of 64 members under the mask: lane i is that of member number i.
#[inline(always)]
fn reading(lowest: u64, vectors: &[u64], mask: u64) -> u64 {
    let mut word = odd(lowest, mask).wrapping_neg();
    for (&vector, digits) in vectors.iter().zip(DIGITS) {
        word ^= digits.wrapping_mul(odd(vector, mask));
    }
    word
}

/// The words of a row: where a lane of a column's first word and a lane of its second differ, that member reads the bit. It says no where no member shows the row: then the words are of no use.
#[inline(always)]
fn fill_row(row: &[u64], mut bits: u64, space: &Space, words: &mut [u64]) -> bool {
    let (first, others) = space.vectors().split_at(VECTORS);
    for (&mask, pair) in row.iter().zip(words.chunks_exact_mut(2)) {
        let low = reading(0, first, mask);
        let high = reading(space.lowest, others, mask) ^ (bits & 1).wrapping_sub(1);
        pair[0] = low;
        pair[1] = high;
        if low | high == 0 {
            return false;
        }
        bits >>= 1;
    }
    true
}

/// How many words are used for a pattern: so many that few members are left, and no more.
fn words_for(columns: usize) -> usize {
    match columns {
        2 => 112,
        3 => 336,
        _ => LEAF_WORDS,
    }
}

/// The words of the first rows that some member shows, as many as there are words for. A function of its own, not inlined, so that its loop has the registers.
#[inline(never)]
fn fill<'w>(pattern: Pattern, space: &Space, words: &'w mut Words) -> &'w [u64] {
    let width = 2 * pattern.columns;
    let most = words_for(pattern.columns);
    let mut filled = 0;
    for row in pattern.table.chunks_exact(pattern.columns) {
        let Some(place) = words[..most].get_mut(filled..filled + width) else {
            break;
        };
        if fill_row(row, pattern.bits, space, place) {
            filled += width;
        }
    }
    &words[..filled]
}

/// The lanes of a group that read the bit of a column, from its two words.
#[inline(always)]
fn lanes_of(low: u64, high: u64, group: usize) -> u64 {
    low ^ (high >> group & 1).wrapping_neg()
}

/// The lanes of a group that show a row.
#[inline(always)]
fn showing(row: &[u64], group: usize) -> u64 {
    let (two, others) = row.split_at(4);
    let mut lanes = lanes_of(two[0], two[1], group) & lanes_of(two[2], two[3], group);
    for pair in others.chunks_exact(2) {
        if lanes == 0 {
            break;
        }
        lanes &= lanes_of(pair[0], pair[1], group);
    }
    lanes
}

/// The lanes of a group that show one of the rows.
#[inline(always)]
fn shown_by<'a>(rows: impl Iterator<Item = &'a [u64]>, group: usize) -> u64 {
    let mut dead = 0;
    for row in rows {
        dead |= showing(row, group);
        if dead == ALL {
            break;
        }
    }
    dead
}

/// The same, with a loop for each small number of columns. Not inlined either.
#[inline(never)]
fn dead_lanes(words: &[u64], columns: usize, group: usize) -> u64 {
    match columns {
        2 => shown_by(words.chunks_exact(4), group),
        3 => shown_by(words.chunks_exact(6), group),
        4 => shown_by(words.chunks_exact(8), group),
        _ => shown_by(words.chunks_exact(2 * columns), group),
    }
}

/// The member of a number: the lowest, with each vector added whose digit in the number is 1.
fn member(space: &Space, mut number: usize) -> u64 {
    let mut state = space.lowest;
    for vector in space.vectors() {
        state ^= vector & (number as u64 & 1).wrapping_neg();
        number >>= 1;
    }
    state
}

/// The first member of a group that is clear or as high as what was found before. The lanes that are dead are known not to be clear.
fn clear_lane(
    pattern: Pattern,
    space: &Space,
    group: usize,
    dead: u64,
    before: Option<u64>,
) -> Option<u64> {
    let mut left = !dead;
    while left != 0 {
        let state = member(space, group * 64 + left.trailing_zeros() as usize);
        if reached(before, state) || pattern.first_shown(state).is_none() {
            return Some(state);
        }
        left &= left - 1;
    }
    None
}

/// Whether what was found is as low as a state.
pub fn reached(found: Option<u64>, state: u64) -> bool {
    found.is_some_and(|lowest| lowest <= state)
}

/// The groups of a leaf in rising order: 64 members at a time are sifted by the words, and those that are left are tried one by one.
fn sift(pattern: Pattern, space: &Space, words: &[u64], before: Option<u64>) -> Option<u64> {
    for group in 0..1 << (space.free() - VECTORS) {
        let dead = dead_lanes(words, pattern.columns, group);
        if dead == ALL {
            continue;
        }
        if let Some(state) = clear_lane(pattern, space, group, dead, before) {
            return Some(before.map_or(state, |lowest| lowest.min(state)));
        }
    }
    before
}

/// The lower of what was found before and the lowest clear member of a space of few vectors.
pub fn leaf(
    pattern: Pattern,
    space: &Space,
    before: Option<u64>,
    words: &mut Words,
) -> Option<u64> {
    let words = fill(pattern, space, words);
    sift(pattern, space, words, before)
}
