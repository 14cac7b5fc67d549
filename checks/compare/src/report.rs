// The cases of the run: each has a name and a number of comparisons, and passes or fails as a whole.

use crate::open_end::endings::Ended;
use crate::tally::Tally;

pub struct Report {
    passed: usize,
    failed: usize,
}

/// What a case answers: how many comparisons it made, or the first that differs.
pub type Outcome = Result<usize, String>;

impl Report {
    pub fn new() -> Report {
        Report {
            passed: 0,
            failed: 0,
        }
    }

    /// A case that compared nothing fails.
    pub fn case(&mut self, name: &str, outcome: Outcome) {
        match outcome {
            Ok(0) => self.fail(name, "nothing was compared"),
            Ok(count) => {
                self.passed += 1;
                println!("pass {name}: {count} compared");
            }
            Err(why) => self.fail(name, &why),
        }
    }

    /// A case over texts, which says their number too.
    pub fn texts(&mut self, name: &str, outcome: Result<Tally, String>) {
        match outcome {
            Ok(tally) => self.case(
                &format!("{name}, {} texts", tally.texts),
                Ok(tally.compared),
            ),
            Err(why) => self.fail(name, &why),
        }
    }

    /// A case over lists, which says how their last seeds ended.
    pub fn ended(&mut self, name: &str, outcome: Result<Ended, String>) {
        match outcome {
            Ok(ended) => self.case(&format!("{name}, {ended}"), Ok(ended.compared)),
            Err(why) => self.fail(name, &why),
        }
    }

    fn fail(&mut self, name: &str, why: &str) {
        self.failed += 1;
        println!("FAIL {name}: {why}");
    }

    /// The last line, and whether all passed.
    pub fn end(&self) -> bool {
        println!("{} passed, {} failed", self.passed, self.failed);
        self.failed == 0 && self.passed > 0
    }
}

/// One comparison.
pub fn same<T: PartialEq + std::fmt::Debug>(what: &str, ours: T, theirs: T) -> Result<(), String> {
    if ours == theirs {
        return Ok(());
    }
    Err(format!("{what}: {ours:?} against {theirs:?}"))
}
