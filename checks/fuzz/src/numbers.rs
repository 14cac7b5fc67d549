// The entries by numbers against the second program: the answers, and every entry of each lent buffer.
// Document 01, "Refusal sheet"; document 02, R-3, R-4 and R-5. A check's number is the refusal by 1 to 5 that the second program's call gives.

use crate::lent::{lend, room};
use crate::parts::{weights, Bytes, Parts};
use second::Refused;
use seeds::raw::{Answer, CubesAnswer, SeedAnswer, SliceAnswer, StateAnswer, StopAnswer};
use seeds::{entries, Machine, Settings, TestSlice, TestSlices};

/// The number and value of an answer, where `Ok` has the value of an accepted call.
fn told(answer: Result<usize, Refused>) -> Answer {
    match answer {
        Ok(value) => Answer { number: 0, value },
        Err(refused) => Answer {
            number: refused.number as usize,
            value: refused.value as usize,
        },
    }
}

/// The answer with a buffer of `room` entries to a call that writes `Ok` entries where there is space. Cause 9 comes last.
fn short(answer: Result<usize, Refused>, room: usize) -> Answer {
    match answer {
        Ok(needed) if needed > room => Answer {
            number: 9,
            value: needed,
        },
        other => told(other),
    }
}

/// The verdict of a check: the refusal's number where it is at most 5, otherwise 0.
fn verdict(answer: Answer) -> usize {
    match answer.number {
        number @ 1..=5 => number,
        _ => 0,
    }
}

/// A word for a place of a lent buffer.
fn entry(place: usize) -> u64 {
    (place as u64 + 1).wrapping_mul(0x9e37_79b9_7f4a_7c15)
}

/// A call's parts in the wrapper's words.
impl Parts {
    fn machine(&self) -> Machine<'_> {
        let settings = Settings::new(self.cells, self.taps)
            .with_limit(self.limit)
            .with_invert(self.invert);
        Machine::new(settings, &self.masks)
    }

    fn stop(&self) -> TestSlice {
        TestSlice {
            specified: self.stop.0,
            bits: self.stop.1,
        }
    }

    fn set(&self) -> TestSlices<'_> {
        TestSlices {
            specified: &self.specified,
            bits: &self.bits,
        }
    }
}

/// Cause 10 of a state: it is the one seed that is handed in, so its place is 0.
fn check_state(cells: usize, state: u64) -> Result<(), Refused> {
    match state & !weights(cells) {
        0 => Ok(()),
        _ => Err(Refused {
            number: 10,
            value: 0,
        }),
    }
}

/// One step and the slice of a state, which do not look at the limit; a step does not look at the inverted chains either.
fn state(p: &Parts, word: u64, choice: u8) {
    let state = match choice % 4 {
        0 => word,
        _ => word & weights(p.cells),
    };
    let cells = p.cells as u64;
    let judged = second::check_register(cells, p.taps);
    let stepped = judged.and_then(|_| check_state(p.cells, state));
    let Answer { number, value } = told(stepped.map(|_| 0));
    let ours = entries::step(p.machine().settings, state);
    let known = StateAnswer {
        number,
        value,
        state: stepped.map_or(0, |_| second::step(cells, p.taps, state)),
    };
    assert_eq!(ours, known, "the step");
    let judged = judged.and_then(|_| second::check_chains(cells, &p.masks));
    let judged = judged.and_then(|_| second::check_invert(p.masks.len() as u64, p.invert));
    let sliced = judged.and_then(|_| check_state(p.cells, state));
    let Answer { number, value } = told(sliced.map(|_| 0));
    let ours = entries::slice(p.machine(), state);
    let known = SliceAnswer {
        number,
        value,
        slice: sliced.map_or(0, |_| second::slice(&p.masks, p.invert, state)),
    };
    assert_eq!(ours, known, "the slice");
}

/// The stop slice and its check.
fn stop(p: &Parts) {
    let theirs = second::stop_slice(p.masks.len() as u64, &p.specified, &p.bits);
    let (specified, bits) = theirs.unwrap_or((0, 0));
    let Answer { number, value } = told(theirs.map(|_| 0));
    let (chains, set) = (p.masks.len(), p.set());
    let ours = entries::stop(chains, set);
    let known = StopAnswer {
        number,
        value,
        specified,
        bits,
    };
    assert_eq!(ours, known, "the stop slice");
    let checked = entries::check_stop(chains, set);
    assert_eq!(checked, verdict(Answer { number, value }), "the check");
}

/// The seed of a window and its check.
fn window(p: &Parts) {
    let (cells, stop, set) = (p.cells as u64, p.stop(), p.set());
    let theirs = second::window_seed(
        cells,
        p.taps,
        p.limit as u64,
        p.invert,
        &p.masks,
        stop.specified,
        stop.bits,
        set.specified,
        set.bits,
    );
    let seed = theirs.unwrap_or(0);
    let Answer { number, value } = told(theirs.map(|_| 0));
    let ours = entries::window(p.machine(), stop, set);
    let known = SeedAnswer {
        number,
        value,
        seed,
    };
    assert_eq!(ours, known, "the seed");
    let checked = entries::check_window(p.machine(), stop, set);
    assert_eq!(checked, verdict(Answer { number, value }), "the check");
}

/// The encoding of a set and its check.
fn set(p: &Parts, choice: u8) {
    let (cells, stop, set) = (p.cells as u64, p.stop(), p.set());
    let mut seeds = vec![0; set.specified.len()];
    let theirs = second::encode_set(
        cells,
        p.taps,
        p.limit as u64,
        p.invert,
        &p.masks,
        stop.specified,
        stop.bits,
        set.specified,
        set.bits,
        &mut seeds,
    );
    let room = room(choice, theirs.unwrap_or(3));
    let known = short(theirs, room);
    let written = match known.number {
        0 => &seeds[..known.value],
        _ => &[],
    };
    let ours = lend(room, written, entry, |out| {
        entries::encode_set(p.machine(), stop, set, out)
    });
    assert_eq!(ours, known, "the set");
    let checked = entries::check_set(p.machine(), stop, set);
    assert_eq!(checked, verdict(told(theirs)), "the check");
}

/// The encoding of cubes and its check.
fn cubes(p: &Parts, choice: u8) {
    let (cells, set) = (p.cells as u64, p.set());
    let mut seeds = vec![0; set.specified.len()];
    let theirs = second::encode_cubes(
        cells,
        p.taps,
        p.limit as u64,
        p.invert,
        &p.masks,
        p.depth as u64,
        set.specified,
        set.bits,
        &mut seeds,
    );
    let count = theirs.map(|(_, _, count)| count);
    let room = room(choice, count.unwrap_or(3));
    let Answer { number, value } = short(count, room);
    let (specified, bits, _) = match number {
        0 => theirs.unwrap_or((0, 0, 0)),
        _ => (0, 0, 0),
    };
    let written = if number == 0 { &seeds[..value] } else { &[] };
    let ours = lend(room, written, entry, |out| {
        entries::encode_cubes(p.machine(), p.depth, set, out)
    });
    let known = CubesAnswer {
        number,
        value,
        specified,
        bits,
    };
    assert_eq!(ours, known, "the cubes");
    let checked = entries::check_cubes(p.machine(), p.depth, set);
    assert_eq!(checked, verdict(told(count)), "the check");
}

/// The expanding of a list; where its seeds are expanded, also with the total that they come to, one less and one more.
fn expanding(p: &Parts, choice: u8) {
    let total = match one_list(p, p.slices, choice) {
        Ok(total) => total,
        Err(Refused { number: 14, value }) => value as usize,
        Err(_) => return,
    };
    for near in total.saturating_sub(1)..=total + 1 {
        let _ = one_list(p, near, choice);
    }
}

/// The expanding of a list with a total and its check: the second program's answer where there is space.
fn one_list(p: &Parts, total: usize, choice: u8) -> Result<usize, Refused> {
    let (cells, stop) = (p.cells as u64, p.stop());
    let mut slices = vec![0; total.min(2048)];
    let theirs = second::expand(
        cells,
        p.taps,
        p.limit as u64,
        p.invert,
        &p.masks,
        stop.specified,
        stop.bits,
        total as u64,
        &p.seeds,
        &mut slices,
    );
    let room = room(choice, theirs.unwrap_or(3));
    let known = short(theirs, room);
    let written = match known.number {
        0 => &slices[..known.value],
        _ => &[],
    };
    let ours = lend(room, written, entry, |out| {
        entries::expand(p.machine(), stop, total, &p.seeds, out)
    });
    assert_eq!(ours, known, "the slices");
    let checked = entries::check_list(p.machine(), stop, total, p.seeds.len());
    assert_eq!(checked, verdict(told(theirs)), "the check");
    theirs
}

/// A flag beside the call: it has inverted chains of its own.
const OWN_INVERT: u8 = 128;

/// One input: which call, then its parts. The lists that are handed in must be as they were.
pub fn run(data: &[u8], choice: u8) {
    let mut bytes = Bytes(data);
    let (call, word) = (bytes.byte(), bytes.word(8));
    let parts = Parts::take(&mut bytes, call & OWN_INVERT != 0);
    let before = format!("{parts:?}");
    match (call & !OWN_INVERT) % 6 {
        0 => window(&parts),
        1 => set(&parts, choice),
        2 => cubes(&parts, choice),
        3 => expanding(&parts, choice),
        4 => stop(&parts),
        _ => state(&parts, word, choice),
    }
    assert_eq!(format!("{parts:?}"), before, "what was handed in");
}
