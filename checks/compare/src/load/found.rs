// What a case of the load test found, and how answers are counted.

use crate::text::refusal;
use std::collections::BTreeMap;

/// How many comparisons a case made, and lines with its figures.
#[derive(Default)]
pub struct Found {
    pub compared: usize,
    pub figures: Vec<String>,
}

impl Found {
    pub fn say(&mut self, line: String) {
        self.figures.push(line);
    }
}

/// How many texts were accepted, and how many refused by which number.
#[derive(Default)]
pub struct Counts {
    accepted: usize,
    refused: BTreeMap<u64, usize>,
}

impl Counts {
    pub fn of<'a>(printed: impl IntoIterator<Item = &'a Vec<u8>>) -> Counts {
        let mut counts = Counts::default();
        for text in printed {
            match refusal(text) {
                Some(refused) => *counts.refused.entry(refused.number).or_default() += 1,
                None => counts.accepted += 1,
            }
        }
        counts
    }

    pub fn shown(&self) -> String {
        let mut line = format!("{} accepted", self.accepted);
        for (number, count) in &self.refused {
            line += &format!(", {count} refused by {number}");
        }
        line
    }
}
