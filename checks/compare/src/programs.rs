// The two programs on texts through pipes, against the second program: what they print, byte for byte, and how they end.

use crate::child::{run, run_both, Ended, Way};
use crate::damage::{self, any_text};
use crate::known::Known;
use crate::largest::{largest, sized};
use crate::random::Random;
use crate::remarks;
use crate::report::{same, Outcome};
use crate::seen::Seen;
use crate::sheets;
use crate::tally::Tally;
use crate::text::{first_difference, shown, Program, Text};
use crate::texts::{cuts, large_texts};
use std::path::PathBuf;
use std::thread;

/// How many random texts the gate tries; so many meet everything that is required.
pub const RANDOM_TEXTS: usize = 12_000;

/// So many bytes of output don't fit into a small pipe.
const LONG_OUTPUT: usize = 4_096;

/// How many texts are tried at a time.
const WORKERS: usize = 4;

/// Where the two programs stand.
pub struct Paths {
    encode: PathBuf,
    expand: PathBuf,
}

fn path(variable: &str) -> Result<PathBuf, String> {
    match std::env::var_os(variable) {
        Some(path) if !path.is_empty() => Ok(path.into()),
        _ => Err(format!(
            "the environment variable {variable} is not set: it names the program"
        )),
    }
}

impl Paths {
    pub fn find() -> Result<Paths, String> {
        Ok(Paths {
            encode: path("ENCODE_PROGRAM")?,
            expand: path("EXPAND_PROGRAM")?,
        })
    }

    pub fn of(&self, program: Program) -> &PathBuf {
        match program {
            Program::Encode => &self.encode,
            Program::Expand => &self.expand,
        }
    }
}

/// What a program printed and how it ended, against what must be printed. Nothing else is printed, and its status is 0, refused or not.
fn judge(ended: &Ended, printed: &[u8]) -> Outcome {
    if ended.printed != printed {
        return Err(first_difference(&ended.printed, printed));
    }
    same("standard error", shown(&ended.errors), shown(b""))?;
    same("the end", ended.status.success(), true).map_err(|_| ended.status.to_string())?;
    Ok(3)
}

/// One program on one text.
fn compare(paths: &Paths, text: &Text, way: Way, tally: &mut Tally) -> Result<(), String> {
    let told = text.told();
    remarks::note(text, &told, &mut tally.seen);
    let outcome = run(paths.of(text.program), &text.bytes, way)
        .and_then(|ended| judge(&ended, &told.printed));
    tally.add(outcome.map_err(|why| format!("{why}, {way:?}, {}", text.shown())))
}

/// The values of a text's slice lines.
fn slices(text: &[u8]) -> Vec<&[u8]> {
    let lines = text.split(|&byte| byte == b'\n');
    lines
        .filter_map(|line| line.strip_prefix(b"slice="))
        .collect()
}

/// Slices agree with a sheet: as many, and each with every specified bit.
pub fn agree(sheet: &[u8], printed: &[u8]) -> bool {
    let (sheet, printed) = (slices(sheet), slices(printed));
    let fits = |(asked, given): (&&[u8], &&[u8])| {
        let free = |(asked, given): (&u8, &u8)| *asked == b'x' || asked == given;
        asked.len() == given.len() && asked.iter().zip(*given).all(free)
    };
    sheet.len() == printed.len() && sheet.iter().zip(&printed).all(fits)
}

/// The encoding program into the expanding program; for an accepted sheet the slices agree with it.
fn compare_both(paths: &Paths, sheet: Vec<u8>, way: Way, tally: &mut Tally) -> Result<(), String> {
    let text = Text::new(Program::Encode, sheet);
    let told = text.told();
    let printed = second::expand_text(&told.printed);
    let outcome = run_both(&paths.encode, &paths.expand, &text.bytes, way).and_then(|ended| {
        let count = judge(&ended, &printed)?;
        if told.answer.is_ok() {
            same("the slices agree", agree(&text.bytes, &ended.printed), true)?;
            tally.seen.note("agrees");
        }
        Ok(count + 1)
    });
    tally.add(outcome.map_err(|why| format!("{why}, expand after {}", text.shown())))
}

/// Shares the work: each worker has its number.
fn shared(work: impl Fn(usize, &mut Tally) -> Result<(), String> + Sync) -> Result<Tally, String> {
    let work = &work;
    let tallies: Vec<_> = thread::scope(|scope| {
        let start = |worker| {
            scope.spawn(move || {
                let mut tally = Tally::default();
                work(worker, &mut tally).map(|()| tally)
            })
        };
        let workers: Vec<_> = (0..WORKERS).map(start).collect();
        workers.into_iter().map(|worker| worker.join()).collect()
    });
    let mut all = Tally::default();
    for tally in tallies {
        all.join(tally.map_err(|_| "a worker failed")??);
    }
    Ok(all)
}

/// Each of these texts in its way.
fn compare_all(paths: &Paths, texts: &[(Text, Way)]) -> Result<Tally, String> {
    shared(|worker, tally| {
        for (text, way) in texts.iter().skip(worker).step_by(WORKERS) {
            compare(paths, text, *way, tally)?;
        }
        Ok(())
    })
}

/// Each of these texts, whole.
pub fn compare_whole(paths: &Paths, texts: impl Iterator<Item = Text>) -> Result<Tally, String> {
    let texts: Vec<_> = texts.map(|text| (text, Way::Whole)).collect();
    compare_all(paths, &texts)
}

/// Texts whose answers are known.
pub fn known(paths: &Paths, known: Vec<Known>) -> Result<Tally, String> {
    compare_whole(paths, known.into_iter().map(|(text, _)| text))
}

/// Document 01's sheet and list, without more lines, with a window line and with an invert line before it, cut after each byte.
pub fn cut(paths: &Paths) -> Result<Tally, String> {
    compare_whole(paths, cuts().into_iter())
}

/// Large texts.
pub fn large(paths: &Paths) -> Result<Tally, String> {
    compare_whole(paths, large_texts(&mut Random(31))?.into_iter())
}

/// Input in pieces of 1 byte, 7 bytes and more; output that is taken slowly, and while the program is stopped and continued.
pub fn in_pieces(paths: &Paths) -> Result<Tally, String> {
    let mut random = Random(32);
    let mut texts = Vec::new();
    for size in [1, 7, 80, 81].repeat(150) {
        let text = any_text(&mut random, &mut Seen::default());
        if text.bytes.len() < 500 * size {
            texts.push((text, Way::Pieces(size)));
        }
    }
    for text in [sized(&mut random)?, largest(&mut random)?].concat() {
        let waits = text.told().printed.len() > LONG_OUTPUT;
        let more = if waits { 3 } else { 1 };
        let ways = [Way::Pieces(1_024), Way::Slow, Way::Stopped];
        texts.extend(ways[..more].iter().map(|way| (text.clone(), *way)));
    }
    compare_all(paths, &texts)
}

/// The encoding program into the expanding program, for random sheets and the largest one.
pub fn both(paths: &Paths) -> Result<Tally, String> {
    let sheets = largest(&mut Random(33))?.into_iter();
    let largest: Vec<_> = sheets
        .filter(|text| text.program == Program::Encode)
        .collect();
    let tally = shared(|worker, tally| {
        let mut random = Random(34_000 + worker as u64);
        for _ in 0..150 {
            let sheet = sheets::any(&mut random, Program::Encode).concat();
            compare_both(paths, sheet, Way::Whole, tally)?;
        }
        for text in largest.iter().skip(worker).step_by(WORKERS) {
            compare_both(paths, text.bytes.clone(), Way::Slow, tally)?;
        }
        Ok(())
    })?;
    tally.seen.require(&["agrees"])?;
    Ok(tally)
}

/// Random texts, whole and damaged.
pub fn random(paths: &Paths, count: usize) -> Result<Tally, String> {
    let tally = shared(|worker, tally| {
        let mut random = Random(35_000 + worker as u64);
        for _ in (worker..count).step_by(WORKERS) {
            let text = any_text(&mut random, &mut tally.seen);
            compare(paths, &text, Way::Whole, tally)?;
        }
        Ok(())
    })?;
    if count >= RANDOM_TEXTS {
        damage::require_all(&tally.seen)?;
        remarks::require_all(&tally.seen)?;
    }
    Ok(tally)
}
