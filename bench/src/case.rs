// A case: what one measurement hands in, a set or a single window, and what is asked of it. Its text is what the measuring process reads.

use seeds::LONGEST_WINDOW;

/// No set of the benchmark has inverted chains.
pub const NONE_INVERTED: u64 = 0;

/// What is asked of the slices.
#[derive(Clone, Copy, Debug, PartialEq)]
pub enum Ask {
    /// The seeds of a set.
    Set = 0,
    /// The seed of one window.
    Window = 1,
    /// The stop slice of a set; of the masks only their number counts.
    Stop = 2,
}

impl Ask {
    /// The one with a number.
    fn numbered(number: u64) -> Option<Ask> {
        let all = [Ask::Set, Ask::Window, Ask::Stop];
        all.into_iter().find(|&ask| ask as u64 == number)
    }
}

#[derive(Clone)]
pub struct Case {
    pub ask: Ask,
    pub cells: usize,
    pub taps: u64,
    /// The most slices of a window.
    pub window_limit: usize,
    pub masks: Vec<u64>,
    pub stop: (u64, u64),
    pub specified: Vec<u64>,
    pub bits: Vec<u64>,
}

/// Words in hexadecimal, in one line.
fn line(words: &[u64]) -> String {
    let words: Vec<String> = words.iter().map(|word| format!("{word:x}")).collect();
    words.join(" ") + "\n"
}

fn words(line: &str) -> Option<Vec<u64>> {
    let word = |text| u64::from_str_radix(text, 16).ok();
    line.split_whitespace().map(word).collect()
}

impl Case {
    /// The window limit is written where it is not 256: so the benchmark program of an earlier commit reads the other texts.
    pub fn text(&self) -> String {
        let mut numbers = vec![
            self.ask as u64,
            self.cells as u64,
            self.taps,
            self.stop.0,
            self.stop.1,
        ];
        if self.window_limit != LONGEST_WINDOW {
            numbers.push(self.window_limit as u64);
        }
        [&numbers, &self.masks[..], &self.specified, &self.bits]
            .map(line)
            .concat()
    }

    pub fn read(text: &str) -> Option<Case> {
        let mut lines = text.lines().map(words);
        let mut numbers = lines.next()??;
        if numbers.len() == 5 {
            numbers.push(LONGEST_WINDOW as u64);
        }
        let [ask, cells, taps, specified, bits, window_limit] = numbers[..] else {
            return None;
        };
        Some(Case {
            ask: Ask::numbered(ask)?,
            cells: cells as usize,
            taps,
            window_limit: window_limit as usize,
            stop: (specified, bits),
            masks: lines.next()??,
            specified: lines.next()??,
            bits: lines.next()??,
        })
    }

    /// The number of specified positions of the stop slice.
    pub fn positions(&self) -> u32 {
        self.stop.0.count_ones()
    }
}
