// Sheets and lists under masks: the list repeats the invert line exactly when the sheet has it, has the stop slice that the sheet has under every mask, and expands back.

use super::{all, under};
use crate::bench::{LIST, SHEET};
use crate::encodes::small;
use crate::programs::{compare_whole, Paths};
use crate::random::Random;
use crate::report::same;
use crate::sheets::{any_at, inverted, limited, list, sheet, Lines};
use crate::tally::Tally;
use crate::text::{Program, Text};
use crate::texts::compare;
use crate::wide;
use crate::window_limit::texts::expands_back;

/// A text's lines.
fn lines_of(text: &[u8]) -> Lines {
    let lines = text.split_inclusive(|&byte| byte == b'\n');
    lines.map(<[u8]>::to_vec).collect()
}

/// The lines without an invert line.
fn upright(mut lines: Lines) -> Lines {
    lines.retain(|line| !line.starts_with(b"invert="));
    lines
}

/// The number of chains by a text's lines.
fn chains(lines: &Lines) -> usize {
    let chain = |line: &&Vec<u8>| line.starts_with(b"chain=");
    lines.iter().filter(chain).count()
}

/// The stop line of a text, if it has one.
fn stop(text: &[u8]) -> Option<Vec<u8>> {
    let mut lines = lines_of(text).into_iter();
    lines.find(|line| line.starts_with(b"stop="))
}

/// What must hold of the list of an accepted sheet; its stop line is that of the sheet without an invert line, where that is accepted too.
fn judge(sheet: &[u8], list: &[u8], tally: &mut Tally) -> Result<(), String> {
    expands_back(sheet, list)?;
    let other = second::encode_text(&upright(lines_of(sheet)).concat());
    if let Some(other) = stop(&other) {
        tally.seen.note("the same stop line");
        same("the stop line", stop(list), Some(other))?;
    }
    Ok(())
}

/// One sheet, and its list if it has one; the list also without its invert line, and with other masks in it.
fn sheet_and_list(random: &mut Random, sheet: Lines, tally: &mut Tally) -> Result<(), String> {
    let text = Text::new(Program::Encode, sheet.concat());
    compare(random, &text, tally)?;
    let told = text.told();
    if told.answer.is_err() {
        return Ok(());
    }
    judge(&text.bytes, &told.printed, tally).map_err(|why| format!("{why}, {}", text.shown()))?;
    compare(
        random,
        &Text::new(Program::Expand, told.printed.clone()),
        tally,
    )?;
    let lines = lines_of(&told.printed);
    let chains = chains(&lines);
    let mut others = vec![upright(lines.clone())];
    for mask in [0, all(chains), random.bits(chains)] {
        others.push(inverted(lines.clone(), mask));
    }
    for other in others {
        compare(random, &Text::new(Program::Expand, other.concat()), tally)?;
    }
    Ok(())
}

/// A sheet under a mask: small or of up to 64 chains, its bits turned with the mask so that what was delivered still is, or as they were.
fn any_sheet(random: &mut Random, round: usize) -> Lines {
    let call = match round % 6 {
        0 => {
            let chains = [64, random.between(10, 64)][random.between(0, 1)];
            wide::set(random, chains, 30)
        }
        _ => small(random, 10),
    };
    let chains = call.masks.len();
    let mask = [all(chains), random.bits(chains)][round % 2];
    match round % 3 {
        0 => inverted(sheet(&call), mask),
        _ => inverted(sheet(&under(&call, mask)), mask),
    }
}

/// The sheets and lists that the programs get too: document 01's under every mask, without and with a window line.
fn known() -> Vec<Text> {
    let mut texts = Vec::new();
    for (program, text) in [(Program::Encode, SHEET), (Program::Expand, LIST)] {
        for mask in 0..=4 {
            let lines = inverted(lines_of(text.as_bytes()), mask);
            for lines in [
                lines.clone(),
                limited(lines.clone(), 2),
                limited(lines, 256),
            ] {
                texts.push(Text::new(program, lines.concat()));
            }
        }
    }
    texts
}

/// What must be met in sheets and lists with an invert line.
fn require(tally: &Tally) -> Result<(), String> {
    for name in [
        "encode, accepted",
        "encode, 2 at invert=",
        "encode, 8",
        "expand, accepted",
        "expand, 2 at invert=",
        "expand, 11",
        "expand, 14",
    ] {
        tally
            .seen
            .require(&[&format!("{name} with an invert line")])?;
    }
    Ok(())
}

/// Sheets and lists under masks, by the library.
pub fn by_library() -> Result<Tally, String> {
    let mut random = Random(92);
    let mut tally = Tally::default();
    for text in known() {
        compare(&mut random, &text, &mut tally)?;
    }
    for round in 0..1_500 {
        let mut lines = any_sheet(&mut random, round);
        if random.one_in(3) {
            let limit = random.between(1, 12);
            lines = limited(lines, limit);
        }
        sheet_and_list(&mut random, lines, &mut tally)?;
        let lines = any_at(&mut random, Program::Expand, 256);
        let mask = random.bits(chains(&lines));
        let text = Text::new(Program::Expand, inverted(lines, mask).concat());
        compare(&mut random, &text, &mut tally)?;
    }
    tally.seen.require(&["the same stop line"])?;
    tally.seen.require(&["expand, 12 with an invert line"])?;
    require(&tally)?;
    Ok(tally)
}

/// Sheets under masks and their lists, through the two programs.
pub fn by_programs(paths: &Paths) -> Result<Tally, String> {
    let mut random = Random(93);
    let mut texts = known();
    for round in 0..500 {
        let sheet = any_sheet(&mut random, round).concat();
        let printed = second::encode_text(&sheet);
        texts.push(Text::new(Program::Encode, sheet));
        texts.push(Text::new(Program::Expand, printed));
        let mut call = small(&mut random, 8);
        call.seeds.push(random.bits(call.cells));
        call.slices = call.slices.clamp(1, 2_048);
        let mask = random.bits(call.masks.len());
        let lines = inverted(list(&call), mask);
        texts.push(Text::new(Program::Expand, lines.concat()));
    }
    let tally = compare_whole(paths, texts.into_iter())?;
    require(&tally)?;
    Ok(tally)
}
