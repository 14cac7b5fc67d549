// The calls of all functions, and the most stack that a function needs with all that it calls.

use crate::flow::{Call, Frame};
use crate::stated;
use std::collections::HashMap;

/// A frame on the stack: whose, its bytes, and how many times it is there.
#[derive(Clone, Debug, PartialEq)]
pub struct Step {
    pub name: String,
    pub bytes: u64,
    pub times: u64,
}

/// Frames one below the other, and the bytes of all.
#[derive(Clone, Debug, Default, PartialEq)]
pub struct Way {
    pub bytes: u64,
    pub steps: Vec<Step>,
}

impl Way {
    fn one(name: &str, bytes: u64) -> Way {
        let name = name.to_string();
        let steps = vec![Step {
            name,
            bytes,
            times: 1,
        }];
        Way { bytes, steps }
    }

    /// This way, and another below it.
    fn and(mut self, below: Way) -> Way {
        self.bytes += below.bytes;
        for step in below.steps {
            match self.steps.last_mut() {
                Some(last) if last.name == step.name && last.bytes == step.bytes => {
                    last.times += step.times;
                }
                _ => self.steps.push(step),
            }
        }
        self
    }

    /// This way so many times.
    fn times(mut self, count: u64) -> Way {
        self.bytes *= count;
        self.steps.iter_mut().for_each(|step| step.times *= count);
        self
    }
}

/// The frames of all functions by name.
pub struct Graph(pub HashMap<String, Frame>);

impl Graph {
    fn frame(&self, name: &str) -> Result<&Frame, String> {
        let frame = self.0.get(name);
        frame.ok_or(format!(
            "{name} is called, and is neither in the library nor stated"
        ))
    }

    /// The bytes of a function of C's; the library's own functions are none.
    fn outside(&self, name: &str) -> Option<u64> {
        stated::outside(name).filter(|_| !self.0.contains_key(name))
    }

    /// The deepest of the ways that begin with a call of a function, each as `below` has it; calls that it says nothing of are left out.
    fn deepest_call(
        &self,
        name: &str,
        mut below: impl FnMut(&Call) -> Result<Option<Way>, String>,
    ) -> Result<Option<Way>, String> {
        let mut deepest: Option<Way> = None;
        for call in &self.frame(name)?.calls {
            if let Some(way) = below(call)? {
                let way = Way::one(name, call.bytes).and(way);
                if deepest.as_ref().is_none_or(|known| known.bytes < way.bytes) {
                    deepest = Some(way);
                }
            }
        }
        Ok(deepest)
    }

    /// The deepest way from a function to a call of another, which is not counted.
    fn way_to(&self, name: &str, to: &str, above: &[&str]) -> Result<Option<Way>, String> {
        let above = [above, &[name]].concat();
        self.deepest_call(name, |call| match call.callee.as_str() {
            callee if callee == to => Ok(Some(Way::default())),
            callee if self.outside(callee).is_some() => Ok(None),
            callee if above.contains(&callee) => Err(calls_itself(callee)),
            callee => self.way_to(callee, to, &above),
        })
    }

    /// The deepest way from a function on, below those above it. One that calls itself and is above already is left out: it is counted there.
    fn below(&self, name: &str, above: &[&str]) -> Result<Way, String> {
        if let Some(bytes) = self.outside(name) {
            return Ok(Way::one(name, bytes));
        }
        let here = [above, &[name]].concat();
        let calls = self.deepest_call(name, |call| match call.callee.as_str() {
            callee if !here.contains(&callee) => self.below(callee, &here).map(Some),
            callee if stated::frames_of(callee).is_some() => Ok(None),
            callee => Err(calls_itself(callee)),
        })?;
        let alone = Way::one(name, self.frame(name)?.most + stated::RED_ZONE);
        let deepest = calls.filter(|way| way.bytes > alone.bytes).unwrap_or(alone);
        let Some(frames) = stated::frames_of(name) else {
            return Ok(deepest);
        };
        let around = self.way_to(name, name, &[])?;
        let around = around.ok_or(format!("{name} is stated to call itself, and does not"))?;
        Ok(around.times(frames - 1).and(deepest))
    }

    /// The deepest way from an entry on.
    pub fn deepest(&self, entry: &str) -> Result<Way, String> {
        self.below(entry, &[])
    }
}

fn calls_itself(name: &str) -> String {
    format!("{name} calls itself, and how often is not stated")
}

#[cfg(test)]
mod tests {
    use super::*;

    const BRANCH: &str = "search_branching::branch";

    /// A function: its name, its most bytes, and its calls with their bytes.
    type Told<'a> = (&'a str, u64, &'a [(&'a str, u64)]);

    fn graph(functions: &[Told]) -> Graph {
        let frames = functions.iter().map(|&(name, most, calls)| {
            let call = |&(callee, bytes): &(&str, u64)| Call {
                callee: callee.to_string(),
                bytes,
            };
            let calls = calls.iter().map(call).collect();
            (name.to_string(), Frame { most, calls })
        });
        Graph(frames.collect())
    }

    #[test]
    fn the_deepest_call() {
        let all = graph(&[
            ("a", 100, &[("b", 48), ("c", 108)]),
            ("b", 500, &[]),
            ("c", 8, &[("memset", 16)]),
        ]);
        let way = all.deepest("a").unwrap();
        assert_eq!(way.bytes, 108 + 16 + 8192);
        let names: Vec<&str> = way.steps.iter().map(|step| step.name.as_str()).collect();
        assert_eq!(names, ["a", "c", "memset"]);
        assert_eq!(all.deepest("b").unwrap().bytes, 500 + 128);
    }

    #[test]
    fn recursion() {
        let all = graph(&[
            ("a", 0, &[(BRANCH, 8)]),
            (
                BRANCH,
                1000,
                &[(BRANCH, 900), ("around", 1008), ("leaf", 1008)],
            ),
            ("around", 100, &[(BRANCH, 108)]),
            ("leaf", 4000, &[]),
        ]);
        let bytes = 8 + 64 * (1008 + 108) + 1008 + 4000 + 128;
        assert_eq!(all.deepest("a").unwrap().bytes, bytes);
    }

    #[test]
    fn refused() {
        let unstated = graph(&[("a", 0, &[("b", 8)]), ("b", 0, &[("a", 8)])]);
        assert!(unstated.deepest("a").unwrap_err().contains("calls itself"));
        let beside = graph(&[
            (BRANCH, 0, &[(BRANCH, 8), ("b", 8)]),
            ("b", 0, &[("b", 8), (BRANCH, 8)]),
        ]);
        assert!(beside
            .deepest(BRANCH)
            .unwrap_err()
            .contains("b calls itself"));
        let nowhere = graph(&[("a", 0, &[("printf", 8)])]);
        assert!(nowhere
            .deepest("a")
            .unwrap_err()
            .contains("printf is called"));
        let stale = graph(&[(BRANCH, 0, &[])]);
        assert!(stale.deepest(BRANCH).unwrap_err().contains("does not"));
    }
}
