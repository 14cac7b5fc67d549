// A call by numbers, taken from bytes: mostly lawful, with any part unlawful where a flag says so.
// Document 01, "Register and chains" and "Refusal sheet"; document 02, R-3 and R-4.

/// What a call hands in; each entry takes the parts that it has.
#[derive(Debug)]
pub struct Parts {
    pub cells: usize,
    pub taps: u64,
    pub limit: usize,
    pub invert: u64,
    pub masks: Vec<u64>,
    pub stop: (u64, u64),
    pub depth: usize,
    pub specified: Vec<u64>,
    pub bits: Vec<u64>,
    pub slices: usize,
    pub seeds: Vec<u64>,
}

/// Flags of a call: which parts are taken as they come.
const ANY_TAPS: u8 = 1;
const ANY_MASKS: u8 = 2;
const ANY_STOP: u8 = 4;
const ANY_SLICES: u8 = 8;
const ANY_LENGTHS: u8 = 16;
const ANY_SEEDS: u8 = 32;
const REPEATED: u8 = 64;
const OWN_LIMIT: u8 = 128;

/// The bytes that are left of an input.
pub struct Bytes<'a>(pub &'a [u8]);

impl Bytes<'_> {
    pub fn byte(&mut self) -> u8 {
        let Some((&first, rest)) = self.0.split_first() else {
            return 0;
        };
        self.0 = rest;
        first
    }

    /// A word of so many bytes.
    pub fn word(&mut self, bytes: usize) -> u64 {
        (0..bytes).fold(0, |word, _| word << 8 | u64::from(self.byte()))
    }

    /// A number from 0 to `most`, or one far out of range.
    fn number(&mut self, most: usize) -> usize {
        match self.word(2) as usize {
            0xffff => usize::MAX,
            0xfffe => 1 << 40,
            number => number % (most + 3),
        }
    }
}

/// The weights of so many positions, at most 64.
pub fn weights(count: usize) -> u64 {
    match count {
        0 => 0,
        1..=63 => (1 << count) - 1,
        _ => u64::MAX,
    }
}

/// Bytes that hold a word of so many bits.
fn width(bits: usize) -> usize {
    bits.clamp(1, 64).div_ceil(8)
}

/// How many of so many slices are tried: a search has no limit of its own, and the second program's is slow where it meets
/// many long windows. More than 2,048 slices are refused before any search.
pub fn tried(cells: usize, slices: usize) -> usize {
    let most = if cells <= 12 { 300 } else { 40 };
    match slices {
        2049.. => 2049,
        _ => slices.min(most),
    }
}

/// A number of cells: mostly few, so that a search is short, or 64, where shifts of a word have a case of their own.
fn cells(bytes: &mut Bytes) -> usize {
    match bytes.byte() {
        byte @ 0..=199 => 1 + usize::from(byte) % 18,
        byte @ 200..=238 => 19 + usize::from(byte - 200),
        239..=250 => 64,
        _ => bytes.number(64),
    }
}

/// A limit of windows: document 01's 256, or as a flag says mostly a small one, 0 too, one around 256, any, or one far out of range.
fn limit(bytes: &mut Bytes, flags: u8) -> usize {
    if flags & OWN_LIMIT == 0 {
        return 256;
    }
    match bytes.byte() {
        byte @ 0..=199 => usize::from(byte) % 20,
        byte @ 200..=229 => 250 + usize::from(byte) % 10,
        _ => bytes.number(256),
    }
}

/// Inverted chains of so many: none, or as a flag says mostly some of them, all, or any word.
fn invert(bytes: &mut Bytes, own: bool, chains: usize) -> u64 {
    if !own {
        return 0;
    }
    match bytes.byte() {
        0..=199 => bytes.word(width(chains)) & weights(chains),
        200..=229 => weights(chains),
        _ => bytes.word(8),
    }
}

/// A test slice for so many chains.
fn test_slice(bytes: &mut Bytes, chains: usize, any: bool) -> (u64, u64) {
    if any {
        return (bytes.word(8), bytes.word(8));
    }
    let specified = bytes.word(width(chains)) & weights(chains);
    (specified, bytes.word(width(chains)) & specified)
}

impl Parts {
    /// The parts, with inverted chains where `inverts` says so.
    pub fn take(bytes: &mut Bytes, inverts: bool) -> Parts {
        let flags = bytes.byte();
        let cells = cells(bytes);
        let (held, last) = (weights(cells), 1 << cells.clamp(1, 64).saturating_sub(1));
        let taps = match flags & ANY_TAPS {
            0 => bytes.word(width(cells)) & held | last,
            _ => bytes.word(8),
        };
        let limit = limit(bytes, flags);
        let chains = usize::from(bytes.byte()) % 67;
        let mask = |bytes: &mut Bytes| match flags & ANY_MASKS {
            0 => (bytes.word(width(cells)) & held).max(1),
            _ => bytes.word(8),
        };
        let masks = (0..chains).map(|_| mask(bytes)).collect();
        let invert = invert(bytes, inverts, chains);
        let stop = test_slice(bytes, chains, flags & ANY_STOP != 0);
        let depth = bytes.number(256);
        let slices = bytes.number(2048);
        let seeds = (0..bytes.byte() % 12).map(|_| match flags & ANY_SEEDS {
            0 => bytes.word(width(cells)) & held,
            _ => bytes.word(8),
        });
        let seeds = seeds.collect();
        let (specified, bits) = lists(bytes, flags, cells, chains);
        Parts {
            cells,
            taps,
            limit,
            invert,
            masks,
            stop,
            depth,
            specified,
            bits,
            slices,
            seeds,
        }
    }
}

/// The test slices from the bytes that are left, repeated where a flag says so.
fn lists(bytes: &mut Bytes, flags: u8, cells: usize, chains: usize) -> (Vec<u64>, Vec<u64>) {
    let times = match flags & REPEATED {
        0 => 1,
        _ => bytes.number(2048),
    };
    let dropped = bytes.byte();
    let (mut specified, mut bits) = (Vec::new(), Vec::new());
    while !bytes.0.is_empty() {
        let (positions, values) = test_slice(bytes, chains, flags & ANY_SLICES != 0);
        specified.push(positions);
        bits.push(values);
    }
    let count = tried(cells, specified.len().saturating_mul(times));
    specified = specified.iter().copied().cycle().take(count).collect();
    bits = bits.iter().copied().cycle().take(count).collect();
    if flags & ANY_LENGTHS != 0 {
        match dropped % 2 {
            0 => specified.truncate(usize::from(dropped) / 2),
            _ => bits.truncate(usize::from(dropped) / 2),
        }
    }
    (specified, bits)
}
