// Damages of the row of lines, of their lengths, and of the end of the text.

use crate::damage::{entries, parts, pick};
use crate::random::Random;
use crate::sheets::Lines;

/// Lengths of lines around the longest that is lawful, and far beyond; the line feed counts.
const LENGTHS: [usize; 12] = [71, 72, 79, 80, 81, 82, 83, 160, 256, 257, 4_096, 9_000];

pub fn neighbours_swapped(random: &mut Random, lines: &mut Lines) {
    if let Some(place) = pick(random, lines) {
        let next = (place + 1) % lines.len();
        lines.swap(place, next);
    }
}

pub fn two_swapped(random: &mut Random, lines: &mut Lines) {
    if let (Some(one), Some(other)) = (pick(random, lines), pick(random, lines)) {
        lines.swap(one, other);
    }
}

pub fn dropped(random: &mut Random, lines: &mut Lines) {
    if let Some(place) = pick(random, lines) {
        lines.remove(place);
    }
}

pub fn repeated(random: &mut Random, lines: &mut Lines) {
    if let Some(place) = pick(random, lines) {
        lines.insert(place, lines[place].clone());
    }
}

pub fn empty_line(random: &mut Random, lines: &mut Lines) {
    let place = [0, random.between(0, lines.len()), lines.len()][random.between(0, 2)];
    lines.insert(place, b"\n".to_vec());
}

/// A line of this kind of text or of the other, anywhere.
pub fn inserted(random: &mut Random, lines: &mut Lines) {
    let others = [
        "invert=0\n",
        "invert=1\n",
        "invert=3\n",
        "window=1\n",
        "window=2\n",
        "window=256\n",
        "window=0\n",
        "depth=1\n",
        "stop=1\n",
        "stop=0x\n",
        "slices=4\n",
        "slice=x\n",
        "slice=10\n",
        "seed=3\n",
        "seed=0\n",
        "cells=3\n",
        "taps=6\n",
        "chains=2\n",
        "chain=1\n",
        "at=1\n",
        "refused=13\n",
        "#\n",
        "key=value\n",
    ];
    let line = others[random.between(0, others.len() - 1)];
    let place = [random.between(0, lines.len()), lines.len()][random.between(0, 1)];
    lines.insert(place, line.into());
}

/// The text ends after any of its lines.
pub fn ends_early(random: &mut Random, lines: &mut Lines) {
    lines.truncate(random.between(0, lines.len()));
}

/// No slice line, or no seed line.
pub fn no_entry(_: &mut Random, lines: &mut Lines) {
    lines.truncate(entries(lines).start);
}

/// A number of slice or seed lines that depth may not divide, or a total that differs.
pub fn fewer_entries(random: &mut Random, lines: &mut Lines) {
    let found = entries(lines);
    lines.truncate(random.between(found.start, found.end));
}

/// More than 2,048 slice or seed lines; sometimes with a damage in the 2,049th, or in the one before or behind it.
pub fn too_many_entries(random: &mut Random, lines: &mut Lines) {
    let found = entries(lines);
    let Some(last) = lines[found.clone()].last().cloned() else {
        return;
    };
    let count = [2_049, 2_050, 2_100][random.between(0, 2)];
    lines.resize(found.start + count, last);
    if random.one_in(2) {
        let place = found.start + random.between(2_047, count - 1);
        let bad = [
            "\n",
            "x\n",
            "seed=\n",
            "slice=\n",
            "seed=0g\n",
            "slice=2\n",
            "cells=1\n",
        ];
        lines[place] = bad[random.between(0, bad.len() - 1)].into();
    }
}

/// A line with its own key, filled up to a length around the longest that is lawful, or far beyond.
pub fn overlong(random: &mut Random, lines: &mut Lines) {
    let Some(place) = pick(random, lines) else {
        return;
    };
    let (key, value) = parts(&lines[place]);
    let length = LENGTHS[random.between(0, LENGTHS.len() - 1)];
    let filling = b"01x"[random.between(0, 2)];
    let mut line = [key, value].concat();
    line.resize((length - 1).max(line.len()), filling);
    line.push(b'\n');
    lines[place] = line;
}

/// A line without a key of such a length.
pub fn overlong_without_key(random: &mut Random, lines: &mut Lines) {
    let length = LENGTHS[random.between(0, LENGTHS.len() - 1)];
    let mut line = vec![b"=x0c\0"[random.between(0, 4)]; length - 1];
    line.push(b'\n');
    match pick(random, lines) {
        Some(place) if random.one_in(2) => lines[place] = line,
        Some(place) => lines.insert(place, line),
        None => lines.push(line),
    }
}

pub fn no_last_feed(_: &mut Random, lines: &mut Lines) {
    if let Some(last) = lines.last_mut() {
        last.pop();
    }
}

/// No line feed behind any line but the last.
pub fn feed_dropped(random: &mut Random, lines: &mut Lines) {
    if let Some(place) = pick(random, lines) {
        lines[place].retain(|&byte| byte != b'\n');
    }
}

/// Bytes behind the last line.
pub fn more_behind(random: &mut Random, lines: &mut Lines) {
    let more: [&[u8]; 7] = [b"\n", b"\n\n", b"\r\n", b" ", b"\0", b"x", b"\x1a"];
    lines.push(more[random.between(0, 6)].to_vec());
}

/// The text ends after any of its bytes.
pub fn cut(random: &mut Random, lines: &mut Lines) {
    if let Some(place) = pick(random, lines) {
        lines.truncate(place + 1);
        let length = random.between(0, lines[place].len());
        lines[place].truncate(length);
    }
}

/// The text twice.
pub fn twice(_: &mut Random, lines: &mut Lines) {
    lines.extend_from_within(..);
}
