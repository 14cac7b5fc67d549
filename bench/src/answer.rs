// An answer: the seeds of a set, the one seed of a window, the stop slice of a set, or a refusal. Exact columns must print the same.

use std::fmt;

#[derive(Debug, PartialEq)]
pub enum Answer {
    Seeds(Vec<u64>),
    /// A stop slice's specified positions and bits.
    Stop(u64, u64),
    /// A refusal's number and value.
    Refused(usize, usize),
}

impl Answer {
    /// The answer for a set: its seeds, or refusal 8 with the slices of the longest start that can be cut.
    pub fn of_set(told: Result<Vec<u64>, usize>) -> Answer {
        match told {
            Ok(seeds) => Answer::Seeds(seeds),
            Err(slices) => Answer::Refused(8, slices),
        }
    }

    /// The answer for a window: its seed, or refusal 7.
    pub fn of_window(told: Option<u64>) -> Answer {
        match told {
            Some(seed) => Answer::Seeds(vec![seed]),
            None => Answer::Refused(7, 0),
        }
    }

    /// The answer for a stop slice: its specified positions and bits, or refusal 6.
    pub fn of_stop(told: Option<(u64, u64)>) -> Answer {
        match told {
            Some((specified, bits)) => Answer::Stop(specified, bits),
            None => Answer::Refused(6, 0),
        }
    }

    pub fn read(line: &str) -> Option<Answer> {
        let mut words = line.split_whitespace();
        let first = words.next()?;
        if first == "refused" {
            let mut number = || words.next()?.parse().ok();
            return Some(Answer::Refused(number()?, number()?));
        }
        let hexadecimal = |word| u64::from_str_radix(word, 16).ok();
        if first == "stop" {
            let mut word = || hexadecimal(words.next()?);
            return Some(Answer::Stop(word()?, word()?));
        }
        Some(Answer::Seeds(
            words.map(hexadecimal).collect::<Option<_>>()?,
        ))
    }

    /// Whether a library that closes every window, also the one that ends a set, may have answered `closed` for a set whose answer this is. Its list goes on as this one up to the last seed and is no shorter, or it is refused by 8; a refusal of this one is its own too.
    pub fn agrees_before_last(&self, closed: &Answer) -> bool {
        match (self, closed) {
            (Answer::Seeds(seeds), Answer::Seeds(closed)) => {
                let before = seeds.len().saturating_sub(1);
                closed.len() >= seeds.len() && closed[..before] == seeds[..before]
            }
            (Answer::Seeds(_), Answer::Refused(8, _)) => true,
            _ => self == closed,
        }
    }

    /// The number of seeds; none for a stop slice or a refusal.
    pub fn seeds(&self) -> Option<usize> {
        match self {
            Answer::Seeds(seeds) => Some(seeds.len()),
            Answer::Stop(..) | Answer::Refused(..) => None,
        }
    }

    /// What a table of sets says of it.
    pub fn of_sets_table(&self) -> String {
        match self {
            Answer::Seeds(seeds) => seeds.len().to_string(),
            Answer::Refused(number, value) => format!("refused by {number} with {value}"),
            Answer::Stop(..) => self.to_string(),
        }
    }

    /// What a table of windows says of it.
    pub fn of_windows_table(&self) -> String {
        match self {
            Answer::Seeds(seeds) => seeds.first().map_or(String::new(), |s| format!("{s:x}")),
            Answer::Refused(..) => "none".to_string(),
            Answer::Stop(..) => self.to_string(),
        }
    }

    /// What a table of stop slices says of it: its number of positions.
    pub fn of_stops_table(&self) -> String {
        match self {
            Answer::Stop(specified, _) => specified.count_ones().to_string(),
            Answer::Refused(number, _) => format!("refused by {number}"),
            Answer::Seeds(_) => self.to_string(),
        }
    }
}

impl fmt::Display for Answer {
    fn fmt(&self, to: &mut fmt::Formatter) -> fmt::Result {
        match self {
            Answer::Seeds(seeds) => {
                write!(to, "seeds")?;
                seeds.iter().try_for_each(|seed| write!(to, " {seed:x}"))
            }
            Answer::Stop(specified, bits) => write!(to, "stop {specified:x} {bits:x}"),
            Answer::Refused(number, value) => write!(to, "refused {number} {value}"),
        }
    }
}
