// Damages of single bytes: bytes that no line has, and any bytes anywhere.

use crate::damage::{parts, pick};
use crate::random::Random;
use crate::sheets::Lines;

/// Puts bytes into a line: at its start, before or behind the sign, before its line feed, or anywhere.
fn put(random: &mut Random, lines: &mut Lines, bytes: &[u8]) {
    let Some(place) = pick(random, lines) else {
        return;
    };
    let line = &mut lines[place];
    let (behind, end) = (parts(line).0.len(), line.len().saturating_sub(1));
    let spots = [
        0,
        behind.saturating_sub(1),
        behind,
        end,
        end,
        random.between(0, end),
    ];
    let spot = spots[random.between(0, spots.len() - 1)];
    line.splice(spot..spot, bytes.iter().copied());
}

/// A carriage return before the line feed of one line, or of every line.
pub fn carriage_return(random: &mut Random, lines: &mut Lines) {
    let every = random.one_in(4);
    let chosen = pick(random, lines);
    for (place, line) in lines.iter_mut().enumerate() {
        if (every || chosen == Some(place)) && line.ends_with(b"\n") {
            line.insert(line.len() - 1, b'\r');
        }
    }
}

pub fn space(random: &mut Random, lines: &mut Lines) {
    put(random, lines, b" ");
}

pub fn tab(random: &mut Random, lines: &mut Lines) {
    let byte = b"\t\x0b\x0c\r"[random.between(0, 3)];
    put(random, lines, &[byte]);
}

pub fn nul(random: &mut Random, lines: &mut Lines) {
    put(random, lines, b"\0");
}

pub fn above_127(random: &mut Random, lines: &mut Lines) {
    let bytes: [&[u8]; 5] = [b"\x80", b"\xff", b"\xc2\xa0", b"\xef\xbb\xbf", b"\x8a"];
    let bytes = bytes[random.between(0, 4)];
    put(random, lines, bytes);
}

/// One byte with its highest bit set.
pub fn high_bit(random: &mut Random, lines: &mut Lines) {
    change(random, lines, |_, byte| byte | 0x80);
}

/// One byte with one bit turned.
pub fn one_bit(random: &mut Random, lines: &mut Lines) {
    change(random, lines, |random, byte| byte ^ 1 << random.below(8));
}

/// One byte becomes any other.
pub fn any_byte(random: &mut Random, lines: &mut Lines) {
    change(random, lines, |random, _| random.word() as u8);
}

fn change(random: &mut Random, lines: &mut Lines, other: impl Fn(&mut Random, u8) -> u8) {
    let Some(place) = pick(random, lines) else {
        return;
    };
    let line = &mut lines[place];
    if !line.is_empty() {
        let spot = random.between(0, line.len() - 1);
        line[spot] = other(random, line[spot]);
    }
}

pub fn byte_dropped(random: &mut Random, lines: &mut Lines) {
    if let Some(place) = pick(random, lines) {
        let line = &mut lines[place];
        if !line.is_empty() {
            line.remove(random.between(0, line.len() - 1));
        }
    }
}

pub fn byte_put(random: &mut Random, lines: &mut Lines) {
    let bytes = b"0123456789abcdefx=\n\0s";
    let byte = bytes[random.between(0, bytes.len() - 1)];
    put(random, lines, &[byte]);
}
