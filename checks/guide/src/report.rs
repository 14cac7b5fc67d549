// The cases of a run: each has a name, and passes or fails.

pub struct Report {
    passed: usize,
    failed: usize,
}

impl Report {
    pub fn new() -> Report {
        Report {
            passed: 0,
            failed: 0,
        }
    }

    /// A case; what it answers is said behind its name.
    pub fn case(&mut self, name: &str, outcome: Result<String, String>) {
        match outcome {
            Ok(what) => {
                self.passed += 1;
                println!("pass {name}: {what}");
            }
            Err(why) => {
                self.failed += 1;
                println!("FAIL {name}: {why}");
            }
        }
    }

    /// The last line, and whether all passed.
    pub fn end(&self) -> bool {
        println!("{} passed, {} failed", self.passed, self.failed);
        self.failed == 0 && self.passed > 0
    }

    #[cfg(test)]
    pub fn counts(&self) -> (usize, usize) {
        (self.passed, self.failed)
    }
}
