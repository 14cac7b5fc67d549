// Changes to a text that keep most lines in form: whole lines and single characters of values.

/// A generator of numbers from a seed.
struct Numbers(u64);

impl Numbers {
    fn below(&mut self, n: usize) -> usize {
        self.0 = self
            .0
            .wrapping_mul(6_364_136_223_846_793_005)
            .wrapping_add(1_442_695_040_888_963_407);
        (self.0 >> 33) as usize % n.max(1)
    }
}

/// Lines that a text may get.
const LINES: [&[u8]; 28] = [
    b"cells=3\n",
    b"cells=64\n",
    b"taps=6\n",
    b"taps=8000000000000000\n",
    b"chains=2\n",
    b"chain=1\n",
    b"chain=5\n",
    b"invert=0\n",
    b"invert=1\n",
    b"invert=2\n",
    b"invert=3\n",
    b"invert=4\n",
    b"invert=ffffffffffffffff\n",
    b"window=1\n",
    b"window=2\n",
    b"window=3\n",
    b"window=64\n",
    b"window=256\n",
    b"window=0\n",
    b"depth=1\n",
    b"depth=2\n",
    b"slice=x1\n",
    b"slice=10\n",
    b"stop=0x\n",
    b"slices=4\n",
    b"seed=3\n",
    b"seed=0\n",
    b"x=1\n",
];

/// Characters that a value may get.
const CHARACTERS: &[u8] = b"01x01x0123456789abcdefg=\n -\0";

/// A character in place of another, behind the key.
fn change_character(line: &mut [u8], numbers: &mut Numbers) {
    let from = line
        .iter()
        .position(|&byte| byte == b'=')
        .map_or(0, |at| at + 1);
    let place = from + numbers.below(line.len().saturating_sub(from + 1));
    if let Some(byte) = line.get_mut(place) {
        *byte = CHARACTERS[numbers.below(CHARACTERS.len())];
    }
}

/// A text with one to four changes: a line removed, doubled, moved, put in or changed by a character.
pub fn changed(text: &[u8], seed: u64) -> Vec<u8> {
    let mut numbers = Numbers(seed);
    let parts = text.split_inclusive(|&byte| byte == b'\n');
    let mut lines: Vec<Vec<u8>> = parts.map(<[u8]>::to_vec).collect();
    for _ in 0..1 + numbers.below(4) {
        let at = numbers.below(lines.len());
        let to = numbers.below(lines.len() + 1);
        match numbers.below(8) {
            0 if at < lines.len() => drop(lines.remove(at)),
            1 | 2 if at < lines.len() => lines.insert(at, lines[at].clone()),
            3 if at < lines.len() && to < lines.len() => lines.swap(at, to),
            4 => lines.insert(to, LINES[numbers.below(LINES.len())].to_vec()),
            _ if at < lines.len() => change_character(&mut lines[at], &mut numbers),
            _ => {}
        }
    }
    lines.concat()
}
