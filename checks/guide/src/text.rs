// What the lines of an accepted sheet or list say (document 01, "Sheet and seed list"). The library has judged the text; here its values are only picked.

use seeds::TestSlice;

/// The values of the lines with a key, in order.
pub fn values<'a>(text: &'a str, key: &str) -> Vec<&'a str> {
    let lines = text.lines().filter_map(|line| line.split_once('='));
    lines
        .filter(|(name, _)| *name == key)
        .map(|(_, value)| value)
        .collect()
}

/// The numbers of the lines with a key, written in a base.
pub fn numbers(text: &str, key: &str, base: u32) -> Result<Vec<u64>, String> {
    let number = |value: &str| {
        u64::from_str_radix(value, base).map_err(|why| format!("{key}={value}: {why}"))
    };
    values(text, key).into_iter().map(number).collect()
}

/// The number of the one line with a key.
pub fn number(text: &str, key: &str, base: u32) -> Result<u64, String> {
    let numbers = numbers(text, key, base)?;
    numbers.first().copied().ok_or(format!("no line {key}="))
}

/// The slice that characters say: the first from the left has weight 1.
pub fn slice(characters: &str) -> TestSlice {
    let mut slice = TestSlice {
        specified: 0,
        bits: 0,
    };
    for character in characters.chars().rev() {
        slice.specified = slice.specified * 2 + u64::from(character != 'x');
        slice.bits = slice.bits * 2 + u64::from(character == '1');
    }
    slice
}

/// The character of a slice at a position, from 0.
pub fn character(slice: TestSlice, position: usize) -> char {
    match bit(slice.specified, position) {
        '0' => 'x',
        _ => bit(slice.bits, position),
    }
}

/// The bit of a word at a place, from 0.
pub fn bit(word: u64, place: usize) -> char {
    if word >> place & 1 == 1 {
        '1'
    } else {
        '0'
    }
}
