// What the second program answered and met in a case, so that a case can require it.

use second::Refused;
use std::collections::BTreeSet;

#[derive(Default)]
pub struct Seen(BTreeSet<String>);

impl Seen {
    pub fn note(&mut self, what: &str) {
        if !self.0.contains(what) {
            self.0.insert(what.to_string());
        }
    }

    /// An answer of the second program: "accepted", or "refusal" and its number.
    pub fn answer<T>(&mut self, told: &Result<T, Refused>) {
        match told {
            Ok(_) => self.note("accepted"),
            Err(refused) => self.note(&format!("refusal {}", refused.number)),
        }
    }

    pub fn join(&mut self, other: Seen) {
        self.0.extend(other.0);
    }

    /// Fails unless each of these was seen.
    pub fn require(&self, names: &[&str]) -> Result<(), String> {
        for name in names {
            if !self.0.contains(*name) {
                return Err(format!("the inputs tried never met: {name}"));
            }
        }
        Ok(())
    }
}
