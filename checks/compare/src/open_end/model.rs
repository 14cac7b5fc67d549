// A model of sets by the rule: every state, every window and every cutting, one after the other.

use crate::call::{refused, Call};
use crate::encodes::Known;
use crate::inverted::model::{next, slice, stops};

/// The slices of every state, one more than the set has.
struct States(Vec<Vec<u64>>);

impl States {
    fn of(call: &Call) -> States {
        let run = |seed| {
            let mut state = seed;
            let mut slices = Vec::new();
            for _ in 0..=call.specified.len() {
                slices.push(slice(call, state));
                state = next(call, state);
            }
            slices
        };
        States((0..1 << call.cells).map(run).collect())
    }

    /// The lowest state that covers the slices from `start` to `end`: they agree, none shows the stop, and, if it must close, the stop comes next.
    fn lowest(&self, call: &Call, start: usize, end: usize, closes: bool) -> Option<u64> {
        let agrees = |place: usize, shown: u64| {
            (0..call.masks.len()).all(|chain| {
                let asked = call.specified[place] >> chain & 1 == 1;
                !asked || call.bits[place] >> chain & 1 == shown >> chain & 1
            })
        };
        let covers = |slices: &Vec<u64>| {
            let mut window = (start..end).zip(slices);
            window.all(|(place, &shown)| agrees(place, shown) && !stops(call, shown))
                && (!closes || stops(call, slices[end - start]))
        };
        self.0.iter().position(covers).map(|state| state as u64)
    }
}

/// The seeds of all windows of a set, by start and end; those that end the set need not close, but for `closed`, where they do.
struct Windows {
    seeds: Vec<Vec<Option<u64>>>,
    closed: Vec<Vec<Option<u64>>>,
}

impl Windows {
    fn of(call: &Call) -> Windows {
        let (states, length) = (States::of(call), call.specified.len());
        let seed = |start: usize, end: usize, closes| match end {
            end if end <= start || end - start > call.limit => None,
            end => states.lowest(call, start, end, closes),
        };
        let row = |start, open: bool| {
            let ends = 0..=length;
            ends.map(|end| seed(start, end, !(open && end == length)))
                .collect()
        };
        Windows {
            seeds: (0..length).map(|start| row(start, true)).collect(),
            closed: (0..length).map(|start| row(start, false)).collect(),
        }
    }
}

/// Whether the cutting of the first `length` slices at the places in `cuts` has a seed for each window, and how many windows it has.
fn cut(seeds: &[Vec<Option<u64>>], length: usize, cuts: usize) -> Option<usize> {
    let ends = (1..=length).filter(|&end| end == length || cuts >> (end - 1) & 1 == 1);
    let (mut start, mut windows) = (0, 0);
    for end in ends {
        seeds[start][end]?;
        (start, windows) = (end, windows + 1);
    }
    Some(windows)
}

/// The fewest windows over all cuttings of the first `length` slices.
fn fewest(seeds: &[Vec<Option<u64>>], length: usize) -> Option<usize> {
    let cuttings = 0..1 << (length - 1);
    cuttings.filter_map(|cuts| cut(seeds, length, cuts)).min()
}

/// The longest window from each place on, as far as there is one.
fn longest(windows: &Windows, length: usize) -> Vec<u64> {
    let (mut start, mut seeds) = (0, Vec::new());
    while start < length {
        let ends = (start + 1..=length).rev();
        let mut found = ends.filter_map(|end| Some((end, windows.seeds[start][end]?)));
        let Some((end, seed)) = found.next() else {
            break;
        };
        seeds.push(seed);
        start = end;
    }
    seeds
}

/// What must come of a set with space: the seeds of the longest windows, which are as few as any cutting has, or 8 with the longest start whose windows all close.
pub fn encoded(call: &Call) -> Result<Known, String> {
    let (windows, length) = (Windows::of(call), call.specified.len());
    let Some(fewest_of_set) = fewest(&windows.seeds, length) else {
        let starts = (1..=length).rev();
        let start = starts
            .into_iter()
            .find(|&end| fewest(&windows.closed, end).is_some());
        return Ok(refused(8, start.unwrap_or(0)));
    };
    let seeds = longest(&windows, length);
    match seeds.len() == fewest_of_set {
        true => Ok(Ok(seeds)),
        false => Err(format!("{fewest_of_set} seeds are fewest for {call:x?}")),
    }
}

/// The seed of the call's slices as a single window, which closes with its stop.
pub fn window(call: &Call) -> Result<u64, second::Refused> {
    let length = call.specified.len();
    match length <= call.limit {
        true => States::of(call).lowest(call, 0, length, true).ok_or(()),
        false => return refused(3, 0),
    }
    .or_else(|()| refused(7, 0))
}
