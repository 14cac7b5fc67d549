// The stack that the C header promises to be enough.

use std::fs;

/// What the names of the entries begin with.
pub const ENTRY: &str = "seeds_";

/// The name of the bound for every call; that of an entry follows it, as in SEEDS_STACK_STOP for `seeds_stop`.
const NAME: &str = "SEEDS_STACK";

/// What a header states: the bytes of stack that are enough for every call, and those for single entries, by name.
pub struct Header {
    every: u64,
    single: Vec<(String, u64)>,
}

/// The name and the number of a `#define`.
fn define(line: &str) -> Option<(&str, u64)> {
    let mut words = line.split_whitespace();
    words.next().filter(|&word| word == "#define")?;
    Some((words.next()?, words.next()?.parse().ok()?))
}

/// The entry that a bound is for.
fn entry(name: &str) -> Option<String> {
    let name = name.strip_prefix(NAME)?.strip_prefix('_')?;
    Some(format!("{ENTRY}{}", name.to_lowercase()))
}

impl Header {
    fn of(text: &str) -> Option<Header> {
        let defines: Vec<(&str, u64)> = text.lines().filter_map(define).collect();
        let every = defines.iter().find(|(name, _)| *name == NAME)?.1;
        let single = defines.iter();
        let single = single.filter_map(|&(name, bytes)| Some((entry(name)?, bytes)));
        let single = single.collect();
        Some(Header { every, single })
    }

    /// What a file states, which must have a bound for every call.
    pub fn read(file: &str) -> Result<Header, String> {
        let text = fs::read_to_string(file).map_err(|why| format!("{file}: {why}"))?;
        Header::of(&text).ok_or(format!("{file} has no {NAME}"))
    }

    /// The bytes that are enough for an entry: its own bound, or else that for every call.
    pub fn bound(&self, entry: &str) -> u64 {
        let own = self.single.iter().find(|(name, _)| name == entry);
        own.map_or(self.every, |(_, bytes)| *bytes)
    }

    /// An entry that has a bound and is not among these.
    pub fn missing(&self, entries: &[&str]) -> Option<&str> {
        let mut names = self.single.iter().map(|(name, _)| name.as_str());
        names.find(|name| !entries.contains(name))
    }
}

#[cfg(test)]
mod tests {
    use super::Header;

    fn every(text: &str) -> Option<u64> {
        Header::of(text).map(|header| header.every)
    }

    #[test]
    fn numbers() {
        assert_eq!(every("a\n#define SEEDS_STACK 65536\nb"), Some(65536));
        assert_eq!(every("#define SEEDS_STACKS 65536"), None);
        assert_eq!(every("/* SEEDS_STACK 65536 */"), None);
    }

    #[test]
    fn a_bound_for_one_entry() {
        let text = "#define SEEDS_STACK 9\n#define SEEDS_STACK_STOP 5";
        let header = Header::of(text).expect("a bound");
        assert_eq!(header.bound("seeds_stop"), 5);
        assert_eq!(header.bound("seeds_step"), 9);
        assert_eq!(header.missing(&["seeds_step", "seeds_stop"]), None);
        assert_eq!(header.missing(&["seeds_step"]), Some("seeds_stop"));
    }
}
