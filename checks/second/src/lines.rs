// Holds the reading of lines, their keys, numbers and slices, and the printing of them.
// Follows document 01, "Sheet and seed list", and document 02, R-3 (the window line)
// and R-4 (the invert line).

use crate::check::{check_chain_count, check_invert, check_limit, check_mask, check_register};
use crate::{refuse, Refused, DEFAULT_LIMIT, MOST_CELLS, MOST_SLICES};

/// Most bytes of a line, its line feed included.
const LONGEST_LINE: usize = 80;

/// The text not read yet, and the number of the line at hand, from 1.
pub struct Lines<'a> {
    rest: &'a [u8],
    pub number: u64,
}

impl<'a> Lines<'a> {
    pub fn new(input: &'a [u8]) -> Lines<'a> {
        Lines {
            rest: input,
            number: 0,
        }
    }

    /// The next line without its line feed; None at the end of the text.
    fn next_line(&mut self) -> Result<Option<&'a [u8]>, Refused> {
        self.number += 1;
        if self.rest.is_empty() {
            return Ok(None);
        }
        let Some(length) = self.rest.iter().position(|&byte| byte == b'\n') else {
            return self.out_of_form();
        };
        if length + 1 > LONGEST_LINE {
            return self.out_of_form();
        }
        let line = &self.rest[..length];
        self.rest = &self.rest[length + 1..];
        Ok(Some(line))
    }

    /// Cause 13 at the line at hand.
    pub fn out_of_form<T>(&self) -> Result<T, Refused> {
        refuse(13, self.number)
    }

    /// A refused range becomes a refusal at the line at hand.
    pub fn in_range(&self, range: Result<(), Refused>) -> Result<(), Refused> {
        range.or_else(|refused| refuse(refused.number, self.number))
    }

    /// What the next line, if there is one, has after `key`.
    pub fn value_or_end(&mut self, key: &[u8]) -> Result<Option<&'a [u8]>, Refused> {
        match self.next_line()? {
            None => Ok(None),
            Some(line) => match line.strip_prefix(key) {
                None => self.out_of_form(),
                Some(value) => Ok(Some(value)),
            },
        }
    }

    /// What the next line has after `key`. Text that ends here is cause 13.
    pub fn value(&mut self, key: &[u8]) -> Result<&'a [u8], Refused> {
        match self.value_or_end(key)? {
            None => self.out_of_form(),
            Some(value) => Ok(value),
        }
    }

    /// `found` unless it is None: the line at hand is then out of form.
    pub fn formed<T>(&self, found: Option<T>) -> Result<T, Refused> {
        match found {
            None => self.out_of_form(),
            Some(found) => Ok(found),
        }
    }

    /// The next line's decimal number.
    pub fn decimal(&mut self, key: &[u8]) -> Result<u64, Refused> {
        let value = self.value(key)?;
        self.formed(decimal(value))
    }

    /// The next line's decimal number if the line begins with `key`; else None, and the
    /// line is still to be read.
    fn decimal_if_there(&mut self, key: &[u8]) -> Result<Option<u64>, Refused> {
        if !self.rest.starts_with(key) {
            return Ok(None);
        }
        self.decimal(key).map(Some)
    }

    /// The next line's hexadecimal number.
    fn hexadecimal(&mut self, key: &[u8]) -> Result<u64, Refused> {
        let value = self.value(key)?;
        self.formed(hexadecimal(value))
    }

    /// The next line's hexadecimal number if the line begins with `key`; else as in
    /// `decimal_if_there`.
    fn hexadecimal_if_there(&mut self, key: &[u8]) -> Result<Option<u64>, Refused> {
        if !self.rest.starts_with(key) {
            return Ok(None);
        }
        self.hexadecimal(key).map(Some)
    }
}

/// The register, chains, invert line and window line, which a sheet and a list begin with.
pub struct Head {
    pub cells: u64,
    pub taps: u64,
    pub masks: Vec<u64>,
    /// The mask of the invert line, if there is one.
    invert: Option<u64>,
    /// The number of the window line, if there is one.
    window: Option<u64>,
}

impl Head {
    /// Reads the lines cells, taps, chains, chain and, each if it is there, invert and
    /// window. Reading: R-4 doesn't say in which text; chain lines stand in both, so an
    /// invert line may follow them in both. It is a mask and has the form of masks. Behind
    /// the window line, or a second time, it is out of order.
    pub fn read(lines: &mut Lines) -> Result<Head, Refused> {
        let cells = lines.decimal(b"cells=")?;
        if !(1..=MOST_CELLS).contains(&cells) {
            return refuse(1, lines.number);
        }
        let taps = lines.hexadecimal(b"taps=")?;
        lines.in_range(check_register(cells, taps))?;
        let chains = lines.decimal(b"chains=")?;
        lines.in_range(check_chain_count(chains))?;
        let mut masks = Vec::new();
        for _ in 0..chains {
            let mask = lines.hexadecimal(b"chain=")?;
            lines.in_range(check_mask(cells, mask))?;
            masks.push(mask);
        }
        let invert = lines.hexadecimal_if_there(b"invert=")?;
        lines.in_range(check_invert(chains, invert.unwrap_or(0)))?;
        let window = lines.decimal_if_there(b"window=")?;
        lines.in_range(window.map_or(Ok(()), check_limit))?;
        Ok(Head {
            cells,
            taps,
            masks,
            invert,
            window,
        })
    }

    /// The window limit.
    pub fn limit(&self) -> u64 {
        self.window.unwrap_or(DEFAULT_LIMIT)
    }

    /// The mask of the inverted chains.
    pub fn invert(&self) -> u64 {
        self.invert.unwrap_or(0)
    }

    /// Prints the lines that `read` has read: an invert line, with a mask of 0 too, and a
    /// window line only if there was one.
    pub fn print(&self, text: &mut String) {
        text.push_str(&format!("cells={}\n", self.cells));
        text.push_str(&format!("taps={:x}\n", self.taps));
        text.push_str(&format!("chains={}\n", self.masks.len()));
        for mask in &self.masks {
            text.push_str(&format!("chain={mask:x}\n"));
        }
        if let Some(invert) = self.invert {
            text.push_str(&format!("invert={invert:x}\n"));
        }
        if let Some(window) = self.window {
            text.push_str(&format!("window={window}\n"));
        }
    }
}

/// Reads the slice lines up to the end of the text: specified positions and bits.
pub fn read_slices(lines: &mut Lines, chains: usize) -> Result<(Vec<u64>, Vec<u64>), Refused> {
    let (mut spec, mut bits) = (Vec::new(), Vec::new());
    while let Some(value) = lines.value_or_end(b"slice=")? {
        let (places, values) = lines.formed(slice_of(value, chains))?;
        if spec.len() == MOST_SLICES {
            return refuse(3, lines.number);
        }
        spec.push(places);
        bits.push(values);
    }
    Ok((spec, bits))
}

/// Reads the seed lines up to the end of the text.
pub fn read_seeds(lines: &mut Lines) -> Result<Vec<u64>, Refused> {
    let mut seeds = Vec::new();
    while let Some(value) = lines.value_or_end(b"seed=")? {
        let seed = lines.formed(hexadecimal(value))?;
        if seeds.len() == MOST_SLICES {
            return refuse(3, lines.number);
        }
        seeds.push(seed);
    }
    Ok(seeds)
}

/// A number of 1 to `most` digits of the base, lower case, without leading zeros.
fn number(text: &[u8], base: u64, most: usize) -> Option<u64> {
    if text.is_empty() || text.len() > most || (text[0] == b'0' && text.len() > 1) {
        return None;
    }
    let mut all = 0;
    for &byte in text {
        let digit = match byte {
            b'0'..=b'9' => byte - b'0',
            b'a'..=b'f' if base == 16 => byte - b'a' + 10,
            _ => return None,
        };
        all = all * base + u64::from(digit);
    }
    Some(all)
}

/// A decimal number of 1 to 4 digits.
pub fn decimal(text: &[u8]) -> Option<u64> {
    number(text, 10, 4)
}

/// A hexadecimal number of 1 to 16 digits.
pub fn hexadecimal(text: &[u8]) -> Option<u64> {
    number(text, 16, 16)
}

/// A slice of exactly `chains` characters 0, 1 or x: specified positions and bits.
pub fn slice_of(text: &[u8], chains: usize) -> Option<(u64, u64)> {
    if text.len() != chains || chains > 64 {
        return None;
    }
    let (mut spec, mut bits) = (0, 0);
    for (place, &byte) in text.iter().enumerate() {
        match byte {
            b'0' => spec |= 1 << place,
            b'1' => {
                spec |= 1 << place;
                bits |= 1 << place;
            }
            b'x' => {}
            _ => return None,
        }
    }
    Some((spec, bits))
}

/// The characters of a slice, for at most 64 chains.
pub fn slice_text(chains: usize, spec: u64, bits: u64) -> String {
    let mut text = String::new();
    for place in 0..chains.min(64) {
        let character = match ((spec >> place) & 1, (bits >> place) & 1) {
            (0, _) => 'x',
            (_, 0) => '0',
            _ => '1',
        };
        text.push(character);
    }
    text
}

/// What a refused program prints.
pub fn refusal_text(refused: Refused) -> String {
    format!("refused={}\nat={}\n", refused.number, refused.value)
}
