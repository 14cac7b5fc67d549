// Holds the brute force: every state of a small register and every cutting of a set.
// Follows document 01, "Covering and cutting", word by word, with document 02, R-3 (the
// window limit stands where 256 stood), R-4 (each slice is formed as it comes out, with
// the inverted chains) and R-5 (a window that ends the set need not close with its stop).
// Limit and inversion are tested here once more, by themselves.

use crate::check::{check_chains, check_register, check_slices, check_stop};
use crate::register::{agrees, low_bits, shows, step};
use crate::{refuse, Refused, GREATEST_LIMIT, MOST_SLICES};

/// Most cells for the brute force.
pub const MOST_BRUTE_CELLS: u64 = 16;

/// A register, its window limit, inverted chains, chains and a stop slice.
struct Setting<'a> {
    cells: u64,
    taps: u64,
    limit: u64,
    invert: u64,
    masks: &'a [u64],
    stop_spec: u64,
    stop_bits: u64,
}

/// The lowest covering states of a set's windows.
struct Table {
    /// `closing[start][m-1]`: the lowest state that covers the window of m slices from
    /// `start` and closes it with the stop, for m up to the number of slices or the limit.
    closing: Vec<Vec<Option<u64>>>,
    /// `ending[start]`: the lowest state that covers the window from `start` to the end of
    /// the set, whatever comes after it. None, too, if the window is longer than the limit.
    ending: Vec<Option<u64>>,
}

/// What the brute force finds of a set.
#[derive(Clone, Debug, PartialEq, Eq)]
pub struct BruteSet {
    /// The fewest windows, within the limit, of any cutting; None if the set can't be cut.
    /// The window that ends the set need not close with the stop.
    pub fewest: Option<usize>,
    /// The slices in the longest start that can be cut into windows that all close with the
    /// stop. These starts are the ones that refusal 8 counts. Of a set that can be cut this
    /// may be the whole or less.
    pub longest_start: usize,
    /// The seeds of the longest windows, as far as such windows get. The last one reaches
    /// the end of the set if the set can be cut.
    pub seeds: Vec<u64>,
    /// The slices in the windows of these seeds.
    pub reached: usize,
}

impl BruteSet {
    /// True if the longest windows keep the promises for a set of so many slices: they end
    /// with the set exactly when it can be cut, and are then the fewest; otherwise they end
    /// with the longest start that refusal 8 counts. In a set that can be cut that start
    /// plays no part, but that it is one of the set's.
    pub fn rule_is_best(&self, slices: usize) -> bool {
        match self.fewest {
            None => self.reached < slices && self.reached == self.longest_start,
            Some(windows) => {
                let whole = self.reached == slices && self.longest_start <= slices;
                whole && self.seeds.len() == windows
            }
        }
    }
}

impl Setting<'_> {
    /// The slice of a state, chain by chain: 1 where an odd number of the mask's cells hold
    /// 1 and the chain isn't inverted, or an even number and it is.
    fn slice(&self, state: u64) -> u64 {
        let mut all = 0;
        for (place, &mask) in self.masks.iter().take(64).enumerate() {
            let weight = 1u64 << place;
            let odd_ones = (mask & state).count_ones() % 2 == 1;
            let inverted = self.invert & weight != 0;
            if odd_ones != inverted {
                all |= weight;
            }
        }
        all
    }

    /// The state after a step.
    fn step(&self, state: u64) -> u64 {
        step(self.cells, self.taps, state)
    }

    /// True if the slice shows the stop.
    fn shows(&self, v: u64) -> bool {
        shows(self.stop_spec, self.stop_bits, v)
    }

    /// True if the limit is one that document 02 allows.
    fn limit_is_lawful(&self) -> bool {
        self.limit != 0 && self.limit <= GREATEST_LIMIT
    }

    /// True if every inverted chain is one of the chains.
    fn invert_is_lawful(&self) -> bool {
        let mut beyond = self.masks.len()..64;
        beyond.all(|place| (self.invert >> place) & 1 == 0)
    }

    /// True if the state covers the window and, if `closes`, the stop comes straight after
    /// it. A limit that isn't lawful allows no window.
    fn covers(&self, spec: &[u64], bits: &[u64], state: u64, closes: bool) -> bool {
        let length = spec.len();
        if length == 0 || bits.len() != length {
            return false;
        }
        if !self.limit_is_lawful() || length as u64 > self.limit {
            return false;
        }
        if state & !low_bits(self.cells) != 0 {
            return false;
        }
        let mut now = state;
        for t in 0..length {
            let v = self.slice(now);
            if !agrees(spec[t], bits[t], v) || self.shows(v) {
                return false;
            }
            now = self.step(now);
        }
        !closes || self.shows(self.slice(now))
    }

    /// The slices of a state before its first stop, at most `limit` of them, and whether the
    /// next one shows the stop. A state covers no window longer than these slices. With a
    /// stop next, the state closes windows of just their number; else it closes none.
    fn run(&self, state: u64) -> (Vec<u64>, bool) {
        let mut slices = Vec::new();
        let mut now = state;
        loop {
            let v = self.slice(now);
            if self.shows(v) {
                return (slices, true);
            }
            if slices.len() as u64 == self.limit {
                return (slices, false);
            }
            slices.push(v);
            now = self.step(now);
        }
    }

    /// The causes 1 to 5, for at most `most` slices.
    fn check(&self, spec: &[u64], bits: &[u64], most: u64) -> Result<(), Refused> {
        let chains = self.masks.len() as u64;
        check_register(self.cells, self.taps)?;
        check_chains(self.cells, self.masks)?;
        if !self.invert_is_lawful() {
            return refuse(2, 0);
        }
        if !self.limit_is_lawful() || spec.is_empty() || spec.len() as u64 > most {
            return refuse(3, 0);
        }
        check_slices(chains, spec, bits)?;
        check_stop(chains, self.stop_spec, self.stop_bits)
    }

    /// The lowest covering state of every window of the set.
    fn all_windows(&self, spec: &[u64], bits: &[u64]) -> Table {
        let all = spec.len();
        let mut table = Table {
            closing: vec![vec![None; all.min(self.limit as usize)]; all],
            ending: vec![None; all],
        };
        for state in 0..1u64 << self.cells {
            let (slices, stops) = self.run(state);
            let m = slices.len();
            if stops && (1..=all).contains(&m) {
                for start in 0..=all - m {
                    let window = start..start + m;
                    let lowest = &mut table.closing[start][m - 1];
                    if lowest.is_none() && all_agree(&spec[window.clone()], &bits[window], &slices)
                    {
                        *lowest = Some(state);
                    }
                }
            }
            for start in all - m.min(all)..all {
                let lowest = &mut table.ending[start];
                if lowest.is_none() && all_agree(&spec[start..], &bits[start..], &slices) {
                    *lowest = Some(state);
                }
            }
        }
        table
    }
}

/// True if the first of the slices agree with the window, one with each of its slices.
fn all_agree(spec: &[u64], bits: &[u64], slices: &[u64]) -> bool {
    let mut window = spec.iter().zip(bits).zip(slices);
    window.all(|((&places, &values), &v)| agrees(places, values, v))
}

/// The lower of the two numbers of windows that are there.
fn fewer(one: Option<usize>, other: Option<usize>) -> Option<usize> {
    one.into_iter().chain(other).min()
}

/// For each start of the set, by its length, the fewest windows over all its cuttings into
/// windows that all close with the stop. The last window of a cutting is of 1 to `limit`
/// slices, and what is before it is a cutting of a shorter start; all of these are tried.
fn fewest_closing(table: &Table, limit: usize) -> Vec<Option<usize>> {
    let mut fewest: Vec<Option<usize>> = vec![Some(0)];
    for end in 1..=table.closing.len() {
        let mut best = None;
        for m in 1..=end.min(limit) {
            if table.closing[end - m][m - 1].is_some() {
                best = fewer(best, fewest[end - m].map(|before| before + 1));
            }
        }
        fewest.push(best);
    }
    fewest
}

/// The fewest windows over all cuttings of the set: the last window ends the set, and what is
/// before it is a start cut into windows that all close with the stop.
fn fewest_of_set(table: &Table, closing: &[Option<usize>]) -> Option<usize> {
    let mut best = None;
    for (start, last) in table.ending.iter().enumerate() {
        if last.is_some() {
            best = fewer(best, closing[start].map(|before| before + 1));
        }
    }
    best
}

/// The seeds of the longest windows from the first slice on, and the slices they reach. No
/// window is longer than the one that ends the set.
fn longest_windows(table: &Table) -> (Vec<u64>, usize) {
    let mut seeds = Vec::new();
    let mut start = 0;
    while start < table.ending.len() {
        if let Some(seed) = table.ending[start] {
            seeds.push(seed);
            return (seeds, table.ending.len());
        }
        let Some(place) = table.closing[start].iter().rposition(Option::is_some) else {
            break;
        };
        seeds.extend(table.closing[start][place]);
        start += place + 1;
    }
    (seeds, start)
}

/// True if the state covers the window, which has 1 to `limit` slices. With `closes` the
/// window must close with its stop; without, as for the window that ends a set, it need not.
/// False for a limit out of its range: no window is within it. A bit of `invert` beyond the
/// chains names no chain and changes no slice.
#[allow(clippy::too_many_arguments)]
pub fn covers(
    cells: u64,
    taps: u64,
    limit: u64,
    invert: u64,
    masks: &[u64],
    stop_spec: u64,
    stop_bits: u64,
    spec: &[u64],
    bits: &[u64],
    state: u64,
    closes: bool,
) -> bool {
    Setting {
        cells,
        taps,
        limit,
        invert,
        masks,
        stop_spec,
        stop_bits,
    }
    .covers(spec, bits, state, closes)
}

/// The seed of a window given singly, which closes with its stop, found by trying all states.
/// Causes 1, 2 (the chains, or `invert`), 3 (the limit, or a length not 1 to the limit), 4, 5,
/// 7. None if causes 1 to 5 don't hold and the register has more than 16 cells.
#[allow(clippy::too_many_arguments)]
pub fn brute_window(
    cells: u64,
    taps: u64,
    limit: u64,
    invert: u64,
    masks: &[u64],
    stop_spec: u64,
    stop_bits: u64,
    spec: &[u64],
    bits: &[u64],
) -> Option<Result<u64, Refused>> {
    let setting = Setting {
        cells,
        taps,
        limit,
        invert,
        masks,
        stop_spec,
        stop_bits,
    };
    if let Err(refused) = setting.check(spec, bits, limit) {
        return Some(Err(refused));
    }
    if cells > MOST_BRUTE_CELLS {
        return None;
    }
    for state in 0..1u64 << cells {
        if setting.covers(spec, bits, state, true) {
            return Some(Ok(state));
        }
    }
    Some(refuse(7, 0))
}

/// What all states and all cuttings say of a set. Causes 1, 2 (the chains, or
/// `invert`), 3 (the limit, or the number of slices), 4, 5. None if these don't hold and the
/// register has more than 16 cells.
#[allow(clippy::too_many_arguments)]
pub fn brute_set(
    cells: u64,
    taps: u64,
    limit: u64,
    invert: u64,
    masks: &[u64],
    stop_spec: u64,
    stop_bits: u64,
    spec: &[u64],
    bits: &[u64],
) -> Option<Result<BruteSet, Refused>> {
    let setting = Setting {
        cells,
        taps,
        limit,
        invert,
        masks,
        stop_spec,
        stop_bits,
    };
    if let Err(refused) = setting.check(spec, bits, MOST_SLICES as u64) {
        return Some(Err(refused));
    }
    if cells > MOST_BRUTE_CELLS {
        return None;
    }
    let table = setting.all_windows(spec, bits);
    let closing = fewest_closing(&table, limit as usize);
    let longest_start = closing.iter().rposition(Option::is_some).unwrap_or(0);
    let (seeds, reached) = longest_windows(&table);
    Some(Ok(BruteSet {
        fewest: fewest_of_set(&table, &closing),
        longest_start,
        seeds,
        reached,
    }))
}
