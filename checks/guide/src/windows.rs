// How each seed of a list runs to its stop slice over the test slices of its sheet, the last seed to the end of the test slices. States and slices are the library's.

use crate::text;
use seeds::{Machine, Settings, TestSlice};

/// One slice of a seed: the state that it comes from, and the test slice, or at the end the stop slice, that it is held against.
pub struct Moment {
    pub state: u64,
    pub slice: u64,
    pub against: TestSlice,
}

/// A seed with its slices. The last of them shows the stop, but for the last seed, which ends with the test slices.
pub struct Window {
    pub seed: u64,
    /// How many test slices stand before it.
    pub start: usize,
    pub moments: Vec<Moment>,
    pub stops: bool,
}

impl Window {
    /// How many test slices it covers.
    pub fn delivered(&self) -> usize {
        self.moments.len() - usize::from(self.stops)
    }
}

/// A sheet with its list, and how the list runs.
pub struct Sheet {
    pub cells: usize,
    pub taps: u64,
    pub masks: Vec<u64>,
    pub invert: u64,
    pub stop: TestSlice,
    pub windows: Vec<Window>,
}

/// Whether a slice has each specified bit of a test slice or stop slice.
fn has_bits(test: TestSlice, slice: u64) -> bool {
    slice & test.specified == test.bits
}

impl Sheet {
    /// The sheet that a text says, with the list that the library gives for it.
    pub fn read(sheet: &str) -> Result<Sheet, String> {
        let refused = |why: seeds::Refusal| format!("the sheet is refused: {why}");
        let list = seeds::encode_sheet(sheet.as_bytes()).map_err(refused)?;
        let list = String::from_utf8(list).map_err(|why| why.to_string())?;
        let stops = text::values(&list, "stop");
        let mut read = Sheet {
            cells: text::number(sheet, "cells", 10)? as usize,
            taps: text::number(sheet, "taps", 16)?,
            masks: text::numbers(sheet, "chain", 16)?,
            invert: text::numbers(sheet, "invert", 16)?
                .first()
                .copied()
                .unwrap_or(0),
            stop: text::slice(stops.first().ok_or("no stop line")?),
            windows: Vec::new(),
        };
        let tests = text::values(sheet, "slice");
        let tests: Vec<TestSlice> = tests.into_iter().map(text::slice).collect();
        let mut start = 0;
        for seed in text::numbers(&list, "seed", 16)? {
            let window = read.window(seed, start, &tests)?;
            start += window.delivered();
            read.windows.push(window);
        }
        if start != tests.len() {
            return Err(format!("{start} of {} test slices", tests.len()));
        }
        Ok(read)
    }

    /// The window of a seed from a test slice on.
    fn window(&self, seed: u64, start: usize, tests: &[TestSlice]) -> Result<Window, String> {
        let refused = |why: seeds::Refusal| format!("the seed {seed:x} is refused: {why}");
        let settings = Settings::new(self.cells, self.taps).with_invert(self.invert);
        let machine = Machine::new(settings, &self.masks);
        let mut moments = Vec::new();
        let mut state = seed;
        for &test in &tests[start..] {
            let slice = seeds::slice(machine, state).map_err(refused)?;
            let stops = has_bits(self.stop, slice);
            let against = if stops { self.stop } else { test };
            if !has_bits(against, slice) {
                return Err(format!(
                    "the seed {seed:x} does not deliver its test slices"
                ));
            }
            moments.push(Moment {
                state,
                slice,
                against,
            });
            if stops {
                return Ok(Window {
                    seed,
                    start,
                    moments,
                    stops,
                });
            }
            state = seeds::step(machine.settings, state).map_err(refused)?;
        }
        Ok(Window {
            seed,
            start,
            moments,
            stops: false,
        })
    }
}
