// The section on last windows: that of each sparse set, open as the set has it, and closed as it is given singly.

use crate::answer::Answer;
use crate::case::{Ask, Case, NONE_INVERTED};
use crate::columns::Column;
use crate::report::Report;
use crate::row::{row, rows, Plan};
use crate::sets::{all, case, Kind};
use crate::sets_section::name;
use crate::table::{line, ratio, rule, seconds};

/// Up to how many hundredths of its bits are specified in a sparse set.
const SPARSE: u64 = 2;

const LABELS: [&str; 9] = [
    "set",
    "seeds",
    "slices of the last window",
    "specified bits",
    "seed, open",
    "seed, closed",
    "open, s",
    "closed, s",
    "open / closed",
];

/// How many slices a seed delivers before the stop.
fn delivered(case: &Case, seed: u64) -> usize {
    let (positions, stop) = case.stop;
    let runs = |&state: &u64| {
        let slice = second::slice(&case.masks, NONE_INVERTED, state);
        slice & positions != stop
    };
    let next = |&state: &u64| Some(second::step(case.cells as u64, case.taps, state));
    let states = std::iter::successors(Some(seed), next);
    states.take_while(runs).count()
}

/// The last window of a set, as a set and as a single window: the slices behind those that the seeds before the last deliver.
pub fn last_window(case: &Case, before: &[u64]) -> [Case; 2] {
    let start: usize = before.iter().map(|&seed| delivered(case, seed)).sum();
    [Ask::Set, Ask::Window].map(|ask| Case {
        ask,
        specified: case.specified[start..].to_vec(),
        bits: case.bits[start..].to_vec(),
        ..case.clone()
    })
}

/// What the table says of a set whose seeds were not found in time.
fn unknown() -> Vec<String> {
    vec!["–".to_string(); LABELS.len() - 1]
}

/// The entries of a set behind its name. It is encoded once for its list; then its last window is measured as a set and singly, by turns.
fn entries(case: &Case, plan: &Plan) -> Result<Vec<String>, String> {
    let once = Plan {
        columns: vec![Column::Ours],
        rounds: 1,
        ..plan.clone()
    };
    let (_, Some(answer)) = row(case, &once, &[])? else {
        return Ok(unknown());
    };
    let Answer::Seeds(seeds) = answer else {
        return Err(format!("{answer}, and not cut"));
    };
    let Some((&last, before)) = seeds.split_last() else {
        return Err("a set has no seed".to_string());
    };
    let [open, closed] = last_window(case, before);
    let [(open_times, found), (closed_times, singly)] = rows([&open, &closed], plan, &[])?;
    if found.is_some_and(|found| found != Answer::Seeds(vec![last])) {
        return Err("the last window has another seed by itself".to_string());
    }
    let [over, under] = [open_times, closed_times].map(|times| times.of(Column::Ours));
    let bits: u32 = open.specified.iter().map(|word| word.count_ones()).sum();
    Ok(vec![
        seeds.len().to_string(),
        open.specified.len().to_string(),
        bits.to_string(),
        format!("{last:x}"),
        singly.map_or("–".to_string(), |answer| answer.of_windows_table()),
        seconds(over),
        seconds(under),
        ratio(over, under),
    ])
}

fn opening(report: &mut Report) {
    report.paragraph("## Last window");
    report.paragraph("The window that ends a set is covered when its slices agree and none shows the stop (document 02, R-5); the same slices given singly close with the stop. Of each sparse set of the first section, up to 2 % specified, the slices of the last seed are measured in both ways by turns: \"open\" is the encoding of a set of just these slices, which gives the set's last seed or the run fails, \"closed\" is the call for a single window, \"none\" its refusal by 7. Times are the library's; fast has the same seeds or the run fails. The encoding of a set also enters forced positions and keeps the spaces of all lengths, which a single window does not need. A dash: the set's seeds were not found within the limit.");
}

/// What holds of all sets.
fn closing(report: &mut Report) {
    report.paragraph("A state that covers a window with its stop covers it without, so the open seed is never above the closed one. Which of the two is found sooner differs from set to set: without the stop's equations more states fit the bits, and more of them cover.");
}

/// All sparse sets.
pub fn section(report: &mut Report, plan: &Plan) -> Result<(), String> {
    let plan = &Plan {
        columns: vec![Column::Ours, Column::Fast],
        ..plan.clone()
    };
    opening(report);
    report.line("");
    report.line(&line(&LABELS.map(String::from)));
    report.line(&rule(LABELS.len()));
    let sparse = |kind: &Kind| kind.percent <= SPARSE;
    for kind in all().flatten().filter(sparse) {
        let name = name(Some(kind));
        let told = entries(&case(Some(kind))?, plan).map_err(|why| format!("{name}: {why}"))?;
        report.line(&line(&[vec![name], told].concat()));
    }
    closing(report);
    Ok(())
}
