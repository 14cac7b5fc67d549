// Sheets and lists at every limit, without a window line and with it: the list repeats the line exactly when the sheet has it, and expands back.

use super::delivery::packed;
use super::LAWFUL;
use crate::bench::{LIST, SHEET};
use crate::call::Call;
use crate::placed::put;
use crate::programs::{self, agree, Paths};
use crate::random::Random;
use crate::report::same;
use crate::runs::walk;
use crate::sheets::{any_at, limited, list, sheet};
use crate::tally::Tally;
use crate::text::{Program, Text};
use crate::texts::compare;

/// Cells of the registers of packed sets.
const CELLS: [usize; 5] = [8, 12, 20, 33, 64];

/// The bytes of a text before the first line that begins with a key.
fn before<'a>(text: &'a [u8], key: &[u8]) -> &'a [u8] {
    let lines = text.split_inclusive(|&byte| byte == b'\n');
    let front: usize = lines
        .take_while(|line| !line.starts_with(key))
        .map(<[u8]>::len)
        .sum();
    &text[..front]
}

/// What must hold of the list of an accepted sheet: it repeats all lines before depth, the invert line and the window line too, and expands back.
pub fn expands_back(sheet: &[u8], list: &[u8]) -> Result<(), String> {
    let (head, repeated) = (before(sheet, b"depth="), before(list, b"stop="));
    same("the lines before depth", head, repeated)?;
    let slices = second::expand_text(list);
    same("the slices agree", agree(sheet, &slices), true)
}

/// One sheet, and its list if it has one; the list also without its window line, and with other limits in it.
fn sheet_and_list(random: &mut Random, sheet: Vec<u8>, tally: &mut Tally) -> Result<(), String> {
    let text = Text::new(Program::Encode, sheet);
    compare(random, &text, tally)?;
    let told = text.told();
    if told.answer.is_err() {
        return Ok(());
    }
    expands_back(&text.bytes, &told.printed).map_err(|why| format!("{why}, {}", text.shown()))?;
    let list = told.printed;
    compare(random, &Text::new(Program::Expand, list.clone()), tally)?;
    let line = list.split_inclusive(|&byte| byte == b'\n');
    if let Some(place) = line.clone().position(|line| line.starts_with(b"window=")) {
        tally.seen.note("a window line repeated");
        let mut lines: Vec<&[u8]> = line.collect();
        for other in ["", "window=1\n", "window=255\n"] {
            lines[place] = other.as_bytes();
            let text = Text::new(Program::Expand, lines.concat());
            compare(random, &text, tally)?;
        }
    }
    Ok(())
}

/// Document 01's sheet and list with the line.
fn known(limit: usize) -> [Vec<u8>; 2] {
    let line = format!("window={limit}\n");
    [SHEET, LIST].map(|text| put(text.as_bytes(), 6, line.as_bytes()))
}

/// A sheet that is accepted with its line, and perhaps not with another.
fn packed_sheet(random: &mut Random, limit: usize) -> Result<Call, String> {
    let mut call = packed(random, CELLS[limit % CELLS.len()], limit)?;
    call.depth = 1;
    Ok(call)
}

/// Lists of one to three seeds, of which one shows the stop in the last slice that the limit allows, or one slice later.
fn at_the_end(random: &mut Random, limit: usize) -> Vec<Vec<u8>> {
    let cells = [10, 16, 33, 64][random.between(0, 3)];
    let (mut call, states) = walk(random, cells);
    let mut texts = Vec::new();
    for last in [limit, limit + 1] {
        for steps in [vec![last], vec![1, last, 1], vec![1, last], vec![last, 1]] {
            call.seeds = steps.iter().map(|&steps| states[steps]).collect();
            call.slices = steps.iter().sum();
            texts.push(limited(list(&call), limit).concat());
        }
    }
    texts
}

/// The sheets of one limit: document 01's with the line, and a packed one and random ones with the line and without.
fn sheets_at(random: &mut Random, limit: usize) -> Result<Vec<Vec<u8>>, String> {
    let packed = sheet(&packed_sheet(random, limit)?);
    let [known, _] = known(limit);
    let mut texts = vec![
        known,
        packed.concat(),
        limited(packed.clone(), 256).concat(),
        limited(packed, limit).concat(),
    ];
    for _ in 0..4 {
        let lines = any_at(random, Program::Encode, limit);
        texts.push(lines.concat());
        texts.push(limited(lines, limit).concat());
    }
    Ok(texts)
}

/// Sheets and lists at every limit, by the library.
pub fn by_library() -> Result<Tally, String> {
    let mut random = Random(71);
    let mut tally = Tally::default();
    for limit in LAWFUL {
        for text in sheets_at(&mut random, limit)? {
            sheet_and_list(&mut random, text, &mut tally)?;
        }
        let [_, known] = known(limit);
        for list in at_the_end(&mut random, limit).into_iter().chain([known]) {
            let text = Text::new(Program::Expand, list);
            compare(&mut random, &text, &mut tally)?;
        }
    }
    tally.seen.require(&["a window line repeated"])?;
    for name in ["encode, accepted", "encode, 8", "expand, accepted"] {
        tally
            .seen
            .require(&[&format!("{name} with a window line")])?;
    }
    tally.seen.require(&["expand, 12 with a window line"])?;
    Ok(tally)
}

/// A sheet and its list, through the two programs, at every limit.
pub fn by_programs(paths: &Paths) -> Result<Tally, String> {
    let mut random = Random(72);
    let mut texts = Vec::new();
    for limit in LAWFUL {
        let [sheet_01, list_01] = known(limit);
        let packed = limited(sheet(&packed_sheet(&mut random, limit)?), limit).concat();
        let packed_list = second::encode_text(&packed);
        for sheet in [sheet_01, packed] {
            texts.push(Text::new(Program::Encode, sheet));
        }
        for list in at_the_end(&mut random, limit).into_iter().take(5) {
            texts.push(Text::new(Program::Expand, list));
        }
        for list in [list_01, packed_list] {
            texts.push(Text::new(Program::Expand, list));
        }
    }
    let tally = programs::compare_whole(paths, texts.into_iter())?;
    for name in ["encode, accepted", "expand, accepted", "expand, 12"] {
        tally
            .seen
            .require(&[&format!("{name} with a window line")])?;
    }
    Ok(tally)
}
