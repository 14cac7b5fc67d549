// What a case over texts did: how many texts it tried, how many comparisons it made, and what it met.

use crate::report::Outcome;
use crate::seen::Seen;

#[derive(Default)]
pub struct Tally {
    pub texts: usize,
    pub compared: usize,
    pub seen: Seen,
}

impl Tally {
    /// Counts one text with its comparisons.
    pub fn add(&mut self, outcome: Outcome) -> Result<(), String> {
        self.compared += outcome?;
        self.texts += 1;
        Ok(())
    }

    pub fn join(&mut self, other: Tally) {
        self.texts += other.texts;
        self.compared += other.compared;
        self.seen.join(other.seen);
    }
}
