// The search for the lowest member of a space that shows a pattern in no row of its table: its members in rising blocks first, then branch and bound over the whole.

use super::leaf::{is_leaf, leaf, reached, Words, LEAF_VECTORS};
use super::pattern::Pattern;
use super::space::Space;

/// How many of the last vectors are left to the search of the whole space.
const LAST_VECTORS: usize = 6;

/// The lower of what was found before and the lowest clear member of the space: branch and bound on the first row in which the lowest member shows the pattern.
fn branch(pattern: Pattern, space: &Space, before: Option<u64>, words: &mut Words) -> Option<u64> {
    if reached(before, space.lowest) {
        return before;
    }
    if is_leaf(pattern, space.free()) {
        return leaf(pattern, space, before, words);
    }
    let Some(row) = pattern.first_shown(space.lowest) else {
        return Some(space.lowest);
    };
    let mut rest = space.clone();
    let mut found = before;
    for &mask in row {
        let pivot = rest.take_out(mask);
        if pivot != 0 {
            rest.lowest = space.lowest ^ pivot;
            found = branch(pattern, &rest, found, words);
        }
    }
    found
}

/// The first members of a space in rising order: those of its first vectors, then block by block those that add one vector more. A state that it finds is the lowest clear member; where it finds none, there may be one in the rest.
fn rise(pattern: Pattern, space: &Space, words: &mut Words) -> Option<u64> {
    let first = space.of_first(LEAF_VECTORS);
    let mut found = branch(pattern, &first, None, words);
    let mut place = LEAF_VECTORS;
    while found.is_none() && place + LAST_VECTORS < space.free() {
        found = branch(pattern, &space.block(place), None, words);
        place += 1;
    }
    found
}

/// The lowest member of the space that shows the pattern in none of its rows.
pub fn lowest_clear(pattern: Pattern, mut space: Space, words: &mut Words) -> Option<u64> {
    if !pattern.force(&mut space) {
        return None;
    }
    if LEAF_VECTORS < space.free() {
        let found = rise(pattern, &space, words);
        if found.is_some() {
            return found;
        }
    }
    branch(pattern, &space, None, words)
}
