// How often the last seed of a list ended in each way, and the comparison of one list with the model.

use crate::call::Call;
use crate::expands;
use crate::inverted::model::{self, Ending};
use crate::random::Random;
use crate::report::Outcome;
use crate::seen::Seen;
use std::collections::BTreeMap;
use std::fmt;

/// What a case over lists compared, and how many of the last seeds ended in each way.
#[derive(Default)]
pub struct Ended {
    pub compared: usize,
    ways: BTreeMap<Ending, usize>,
}

/// The ways that each such case must meet.
const WAYS: [Ending; 5] = [
    Ending::Whole,
    Ending::Early,
    Ending::Nothing,
    Ending::StopsWithin,
    Ending::Endless,
];

impl Ended {
    fn count(&self, way: Ending) -> usize {
        self.ways.get(&way).copied().unwrap_or(0)
    }

    /// One list by the model, the second program and the library, with enough space, one entry fewer and none.
    pub fn compare(&mut self, random: &mut Random, call: &Call, seen: &mut Seen) -> Outcome {
        let (known, way) = model::ending(call);
        let count = expands::compare_known(random, call, known, seen)?;
        if let Some(way) = way {
            *self.ways.entry(way).or_default() += 1;
        }
        self.compared += count;
        Ok(count)
    }

    /// Fails unless a last seed ended in each of the ways.
    pub fn require_all(self) -> Result<Ended, String> {
        match WAYS.iter().find(|&&way| self.count(way) == 0) {
            Some(way) => Err(format!("no last seed ended so: {way:?}")),
            None => Ok(self),
        }
    }
}

impl fmt::Display for Ended {
    fn fmt(&self, out: &mut fmt::Formatter) -> fmt::Result {
        let [whole, early, nothing, within, endless] = WAYS.map(|way| self.count(way));
        write!(
            out,
            "last seeds: {whole} end with the slices, {early} stop before, {nothing} have nothing left, beyond the limit {within} stop and {endless} do not"
        )
    }
}
