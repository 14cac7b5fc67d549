// Many sheets through the encoding program, and the lists of the accepted ones through the expanding program, each in a process of its own.

use super::found::{Counts, Found};
use super::programs::Programs;
use crate::damage::any_text;
use crate::random::Random;
use crate::seen::Seen;
use crate::sheets;
use crate::text::{refusal, Program, Text};
use std::thread;
use std::time::Instant;

/// Texts for one program, and what it must print for each.
struct Work {
    texts: Vec<Text>,
    known: Vec<Vec<u8>>,
}

/// The same sheets in every run, and their lists.
pub struct Many {
    sheets: Work,
    lists: Work,
}

/// A random sheet; of one in four most are damaged, and few are lists.
fn any_sheet(random: &mut Random) -> Text {
    if !random.one_in(4) {
        let lines = sheets::any(random, Program::Encode);
        return Text::new(Program::Encode, lines.concat());
    }
    loop {
        let text = any_text(random, &mut Seen::default());
        if text.program == Program::Encode {
            return text;
        }
    }
}

impl Work {
    /// The second program's answers.
    fn new(texts: Vec<Text>) -> Work {
        let known = texts.iter().map(|text| text.told().printed).collect();
        Work { texts, known }
    }

    /// Every text of a worker, one after another.
    fn part(&self, programs: &Programs, first: usize, workers: usize) -> Result<(), String> {
        let pairs = self.texts.iter().zip(&self.known);
        for (text, known) in pairs.skip(first).step_by(workers) {
            programs.judge(text, known)?;
        }
        Ok(())
    }

    /// All texts, so many at a time: how many seconds it took.
    fn through(&self, programs: &Programs, workers: usize) -> Result<f64, String> {
        let start = Instant::now();
        let parts: Vec<_> = thread::scope(|scope| {
            let work = |first| scope.spawn(move || self.part(programs, first, workers));
            let started: Vec<_> = (0..workers).map(work).collect();
            started.into_iter().map(|part| part.join()).collect()
        });
        for part in parts {
            part.map_err(|_| "a worker failed")??;
        }
        Ok(start.elapsed().as_secs_f64())
    }

    /// What went through in so many seconds.
    fn say(&self, name: &str, seconds: f64, found: &mut Found) {
        let count = self.texts.len();
        let input: usize = self.texts.iter().map(|text| text.bytes.len()).sum();
        let output: usize = self.known.iter().map(Vec::len).sum();
        let counts = Counts::of(&self.known).shown();
        found.compared += count;
        found.say(format!("{count} {name}: {counts}"));
        found.say(format!(
            "{seconds:.1} s, {:.0} a second, {input} bytes in, {output} bytes out",
            count as f64 / seconds
        ));
    }
}

impl Many {
    pub fn new(count: usize) -> Many {
        let mut random = Random(51);
        let sheets = Work::new((0..count).map(|_| any_sheet(&mut random)).collect());
        let accepted = sheets.known.iter().filter(|list| refusal(list).is_none());
        let lists = accepted.map(|list| Text::new(Program::Expand, list.clone()));
        let lists = Work::new(lists.collect());
        Many { sheets, lists }
    }

    /// All sheets and then their lists, so many at a time.
    pub fn through(&self, programs: &Programs, workers: usize) -> Result<Found, String> {
        let mut found = Found::default();
        for (name, work) in [("sheets", &self.sheets), ("lists", &self.lists)] {
            let seconds = work.through(programs, workers)?;
            work.say(name, seconds, &mut found);
        }
        Ok(found)
    }
}
