// Damages of a line's key and value.

use crate::damage::{parts, pick};
use crate::random::Random;
use crate::sheets::Lines;

/// Every key, in the order of a sheet and then of a list.
pub const KEYS: [&[u8]; 11] = [
    b"cells=", b"taps=", b"chains=", b"chain=", b"invert=", b"window=", b"depth=", b"slice=",
    b"stop=", b"slices=", b"seed=",
];

/// Puts another value behind a line's key.
fn revalue(random: &mut Random, lines: &mut Lines, other: impl Fn(&mut Random, &[u8]) -> Vec<u8>) {
    if let Some(place) = pick(random, lines) {
        let (key, value) = parts(&lines[place]);
        let value = other(random, value);
        lines[place] = [key, &value, b"\n"].concat();
    }
}

/// Puts another key before a line's value.
fn rekey(random: &mut Random, lines: &mut Lines, other: impl Fn(&mut Random, &[u8]) -> Vec<u8>) {
    if let Some(place) = pick(random, lines) {
        let (key, value) = parts(&lines[place]);
        let key = other(random, key);
        lines[place] = [&key, value, b"\n"].concat();
    }
}

fn one_of(random: &mut Random, values: &[&str]) -> Vec<u8> {
    values[random.between(0, values.len() - 1)].into()
}

pub fn leading_zero(random: &mut Random, lines: &mut Lines) {
    revalue(random, lines, |_, value| [b"0", value].concat());
}

pub fn zero(random: &mut Random, lines: &mut Lines) {
    revalue(random, lines, |_, _| b"0".to_vec());
}

pub fn zeros(random: &mut Random, lines: &mut Lines) {
    revalue(random, lines, |random, _| {
        one_of(random, &["00", "0000", "00000"])
    });
}

pub fn no_value(random: &mut Random, lines: &mut Lines) {
    revalue(random, lines, |_, _| Vec::new());
}

pub fn five_digits(random: &mut Random, lines: &mut Lines) {
    let values = ["10000", "99999", "00001", "65536", "65539", "00064"];
    revalue(random, lines, |random, _| one_of(random, &values));
}

/// Numbers at the limits of the ranges, and beyond.
pub fn at_limits(random: &mut Random, lines: &mut Lines) {
    let values = [
        "1", "63", "64", "65", "255", "256", "257", "258", "1024", "2047", "2048", "2049", "9999",
    ];
    revalue(random, lines, |random, _| one_of(random, &values));
}

pub fn seventeen_digits(random: &mut Random, lines: &mut Lines) {
    let values = [
        "10000000000000000",
        "fffffffffffffffff",
        "00000000000000001",
        "10000000000000006",
        "100000000000000000000000000000003",
    ];
    revalue(random, lines, |random, _| one_of(random, &values));
}

pub fn sixteen_digits(random: &mut Random, lines: &mut Lines) {
    let values = ["ffffffffffffffff", "8000000000000000", "1000000000000001"];
    revalue(random, lines, |random, _| one_of(random, &values));
}

/// Digits in upper case; where the value has no letter, one in its place.
pub fn upper_digits(random: &mut Random, lines: &mut Lines) {
    revalue(random, lines, |random, value| {
        let upper = value.to_ascii_uppercase();
        if upper == value {
            one_of(random, &["A", "F", "C"])
        } else {
            upper
        }
    });
}

/// One character becomes another: those beside the digits and letters, and some that other notations have.
pub fn other_character(random: &mut Random, lines: &mut Lines) {
    revalue(random, lines, |random, value| {
        let mut value = value.to_vec();
        let others = b"/:`gG@2xX-+_.,'?0189afb";
        if !value.is_empty() {
            let place = random.between(0, value.len() - 1);
            value[place] = others[random.between(0, others.len() - 1)];
        }
        value
    });
}

/// The number one higher or one lower.
pub fn beside(random: &mut Random, lines: &mut Lines) {
    let near = |random: &mut Random, value: &[u8]| {
        let text = std::str::from_utf8(value).unwrap_or("");
        let higher = random.one_in(2);
        let by = |number: u64| {
            if higher {
                number.wrapping_add(1)
            } else {
                number.wrapping_sub(1)
            }
        };
        match (text.parse(), u64::from_str_radix(text, 16)) {
            (Ok(number), _) => by(number).to_string().into_bytes(),
            (_, Ok(number)) => format!("{:x}", by(number)).into_bytes(),
            _ => value.to_vec(),
        }
    };
    revalue(random, lines, near);
}

pub fn one_more(random: &mut Random, lines: &mut Lines) {
    revalue(random, lines, |random, value| {
        [value, &one_of(random, &["0", "1", "x"])].concat()
    });
}

pub fn one_fewer(random: &mut Random, lines: &mut Lines) {
    revalue(random, lines, |_, value| {
        value[..value.len().saturating_sub(1)].to_vec()
    });
}

/// No specified position, mostly in the stop slice where there is one.
pub fn unspecified(random: &mut Random, lines: &mut Lines) {
    let stop = lines.iter().position(|line| line.starts_with(b"stop="));
    match stop {
        Some(place) if !random.one_in(4) => {
            let length = parts(&lines[place]).1.len();
            lines[place] = [b"stop=", &vec![b'x'; length][..], b"\n"].concat();
        }
        _ => revalue(random, lines, |_, value| vec![b'x'; value.len()]),
    }
}

pub fn prefixed(random: &mut Random, lines: &mut Lines) {
    revalue(random, lines, |random, value| {
        [&one_of(random, &["+", "-", "0x", "0X", "\"", "="]), value].concat()
    });
}

pub fn upper_key(random: &mut Random, lines: &mut Lines) {
    rekey(random, lines, |random, key| {
        let mut key = key.to_vec();
        let end = [1, key.len()][random.between(0, 1)].min(key.len());
        key[..end].make_ascii_uppercase();
        key
    });
}

/// A key of this kind of text or of the other.
pub fn other_key(random: &mut Random, lines: &mut Lines) {
    rekey(random, lines, |random, _| {
        KEYS[random.between(0, KEYS.len() - 1)].to_vec()
    });
}

/// A key with a letter more or less: chain for chains, slices for slice.
pub fn near_key(random: &mut Random, lines: &mut Lines) {
    rekey(random, lines, |_, key| match key.strip_suffix(b"s=") {
        Some(word) => [word, b"="].concat(),
        None => [&key[..key.len().saturating_sub(1)], b"s="].concat(),
    });
}

/// No sign between key and value, two, another, or no letter before it.
pub fn other_sign(random: &mut Random, lines: &mut Lines) {
    rekey(random, lines, |random, key| {
        let word = &key[..key.len().saturating_sub(1)];
        let signs: [&[u8]; 4] = [b"", b"==", b":", b"=\n"];
        match random.below(5) {
            4 => b"=".to_vec(),
            sign => [word, signs[sign as usize]].concat(),
        }
    });
}
