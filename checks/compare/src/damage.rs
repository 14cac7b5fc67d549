// The damages of a text, each with its name, and damaged texts.

use crate::random::Random;
use crate::seen::Seen;
use crate::sheets::{any, Lines};
use crate::text::{Program, Text};
use crate::{marks, order, values};
use std::ops::Range;

type Damage = (&'static str, fn(&mut Random, &mut Lines));

/// Every damage.
const DAMAGES: [Damage; 47] = [
    ("a leading zero", values::leading_zero),
    ("0", values::zero),
    ("several zeros", values::zeros),
    ("no value", values::no_value),
    ("five digits", values::five_digits),
    ("a number at a limit", values::at_limits),
    ("seventeen digits", values::seventeen_digits),
    ("sixteen digits", values::sixteen_digits),
    ("upper-case digits", values::upper_digits),
    ("another character", values::other_character),
    ("a number one off", values::beside),
    ("one character more", values::one_more),
    ("one character fewer", values::one_fewer),
    ("no specified position", values::unspecified),
    ("a sign before the value", values::prefixed),
    ("an upper-case key", values::upper_key),
    ("another key", values::other_key),
    ("a key one letter off", values::near_key),
    ("another sign behind the key", values::other_sign),
    ("a carriage return", marks::carriage_return),
    ("a space", marks::space),
    ("a tab", marks::tab),
    ("a byte 0", marks::nul),
    ("a byte above 127", marks::above_127),
    ("a byte with its high bit", marks::high_bit),
    ("a byte one bit off", marks::one_bit),
    ("any byte for another", marks::any_byte),
    ("a byte dropped", marks::byte_dropped),
    ("a byte more", marks::byte_put),
    ("neighbours swapped", order::neighbours_swapped),
    ("two lines swapped", order::two_swapped),
    ("a line dropped", order::dropped),
    ("a line repeated", order::repeated),
    ("an empty line", order::empty_line),
    ("a line inserted", order::inserted),
    ("an early end", order::ends_early),
    ("no entry", order::no_entry),
    ("fewer entries", order::fewer_entries),
    ("too many entries", order::too_many_entries),
    ("an overlong line", order::overlong),
    ("an overlong line without key", order::overlong_without_key),
    ("no last line feed", order::no_last_feed),
    ("a line feed dropped", order::feed_dropped),
    ("bytes behind", order::more_behind),
    ("a cut", order::cut),
    ("the text twice", order::twice),
    ("nothing", |_, _| {}),
];

/// A line's key with its sign, and its value without the line feed.
pub fn parts(line: &[u8]) -> (&[u8], &[u8]) {
    let behind = line
        .iter()
        .position(|&byte| byte == b'=')
        .map_or(0, |at| at + 1);
    let (key, value) = line.split_at(behind);
    (key, value.strip_suffix(b"\n").unwrap_or(value))
}

/// The slice or seed lines.
pub fn entries(lines: &Lines) -> Range<usize> {
    let entry = |line: &Vec<u8>| line.starts_with(b"slice=") || line.starts_with(b"seed=");
    let start = lines.iter().position(entry).unwrap_or(lines.len());
    start..lines.len()
}

/// A line, if there is one: the lines before the entries and the entries come up equally often, and so do the ends of both.
pub fn pick(random: &mut Random, lines: &Lines) -> Option<usize> {
    let found = entries(lines);
    let side = if random.one_in(2) {
        0..found.start
    } else {
        found
    };
    let side = if side.is_empty() {
        0..lines.len()
    } else {
        side
    };
    let last = side.end.checked_sub(1)?;
    Some(match random.below(6) {
        0 => side.start,
        1 => last,
        _ => random.between(side.start, last),
    })
}

/// Damages a text in one to three ways; of a single damage the name is noted.
fn damage(random: &mut Random, lines: &mut Lines, seen: &mut Seen) {
    let times = [1, 1, 1, 2, 3][random.between(0, 4)];
    for _ in 0..times {
        let (name, apply) = DAMAGES[random.between(0, DAMAGES.len() - 1)];
        apply(random, lines);
        if times == 1 {
            seen.note(name);
        }
    }
}

/// A random text: one in four as it is, the others damaged; few are for the other program.
pub fn any_text(random: &mut Random, seen: &mut Seen) -> Text {
    let programs = [Program::Encode, Program::Expand];
    let own = random.between(0, 1);
    let mut lines = any(random, programs[own]);
    if !random.one_in(4) {
        damage(random, &mut lines, seen);
    }
    let program = programs[own ^ usize::from(random.one_in(40))];
    Text::new(program, lines.concat())
}

/// Fails unless each damage was tried alone.
pub fn require_all(seen: &Seen) -> Result<(), String> {
    seen.require(&DAMAGES.map(|(name, _)| name))
}
