// The section on stop slices: how long the call for the stop slice of a set takes.

use crate::answer::Answer;
use crate::report::Report;
use crate::row::{row, Plan, Times};
use crate::stops::{sets, StopSet};
use crate::table::Table;

/// A set that was measured; random slices have a percentage.
pub struct StopRow {
    pub percent: Option<u64>,
    pub times: Times,
}

const LABELS: [&str; 6] = [
    "chains",
    "set",
    "slices",
    "steps",
    "slices in at the end",
    "positions of the stop",
];

fn table(plan: &Plan) -> Table<'_> {
    Table {
        labels: &LABELS,
        columns: &plan.columns,
        notes: &[],
    }
}

/// What the second program's steps do on the set: how many there are, and how many slices are in at the end.
fn steps(set: &StopSet) -> Result<(usize, usize), String> {
    let case = &set.case;
    let trace = second::stop_trace(case.masks.len() as u64, &case.specified, &case.bits)
        .map_err(|refused| format!("{}: refused by {}", set.name, refused.number))?;
    Ok((trace.iterations.len(), trace.left.len()))
}

/// Measures the stop slice of a set and prints its row.
fn measure(report: &mut Report, plan: &Plan, set: &StopSet) -> Result<StopRow, String> {
    let (steps, left) = steps(set)?;
    let (times, answer) =
        row(&set.case, plan, &[]).map_err(|why| format!("stop slice, {}: {why}", set.name))?;
    let labels = [
        set.case.masks.len().to_string(),
        set.name.clone(),
        set.case.specified.len().to_string(),
        steps.to_string(),
        left.to_string(),
        answer
            .as_ref()
            .map_or("–".to_string(), Answer::of_stops_table),
    ];
    report.line(&table(plan).row(&labels, &times, &[]));
    Ok(StopRow {
        percent: set.percent,
        times,
    })
}

/// All sets.
pub fn section(report: &mut Report, plan: &Plan) -> Result<Vec<StopRow>, String> {
    report.paragraph("## Stop slices");
    report.paragraph("The call for the stop slice of a set, on sets of 2,048 slices, the most that it takes. First random slices from a seeded generator, each bit specified with the same chance. Then patterns, which have all their chains specified, in any order: those of 11 chains with x in the other 53, on which the steps are as many as they can be; all patterns of 11 chains, so that none is spare and the call is refused; and all patterns of 10 chains but the last, which is all 1s, so that the spare one is the last that is tried; the repeats have a 1 in the first chain, so that the steps set a 0 there. \"steps\" is the number of positions that the published steps set, \"slices in at the end\" how many slices they leave: if any, the stop slice is the smallest spare pattern.");
    report.paragraph("A step leaves at most half of the slices in, since the bit that it sets is the complement of the one with the greatest count. So 2,048 slices take at most 12 steps, and the steps can only fail up to 11 chains; at 64 chains they always succeed.");
    report.line("");
    report.line(&table(plan).head());
    let mut rows = Vec::new();
    for set in sets() {
        rows.push(measure(report, plan, &set)?);
    }
    Ok(rows)
}
