// The section on window limits: the sets of the section on sets, each measured at several limits by turns.

use crate::answer::Answer;
use crate::columns::Column;
use crate::limits::{limited, LimitRow, LIMITS};
use crate::limits_summary;
use crate::report::Report;
use crate::row::{rows, Plan};
use crate::sets::{all, case, Kind};
use crate::sets_section::{labels, name};
use crate::table::{line, ratio, rule, seconds};

/// The labels that say what the set is.
const LABELS: [&str; 5] = [
    "chains",
    "% specified",
    "",
    "slices",
    "positions of the stop",
];

/// The first two lines of the table.
fn head() -> String {
    let [short, middle, long] = LIMITS;
    let mut entries: Vec<String> = LABELS.map(String::from).into();
    entries.extend(LIMITS.map(|limit| format!("seeds at {limit}")));
    entries.extend(LIMITS.map(|limit| format!("ours at {limit}, s")));
    entries.extend([short, middle].map(|limit| format!("{limit} / {long}")));
    entries.push("second agrees at".to_string());
    format!("{}\n{}", line(&entries), rule(entries.len()))
}

/// The limits at which the second program was compared.
fn compared(row: &LimitRow) -> String {
    let places = (0..LIMITS.len()).filter(|&place| row.compared(place));
    let limits: Vec<String> = places.map(|place| LIMITS[place].to_string()).collect();
    match limits.is_empty() {
        true => "–".to_string(),
        false => limits.join(", "),
    }
}

/// The entries behind the labels: seeds, times, and the ratios to the time at the last limit.
fn entries(row: &LimitRow) -> Vec<String> {
    let seeds = |place| {
        let told = row.answer(place).map(Answer::of_sets_table);
        told.unwrap_or("–".to_string())
    };
    let [short, middle, long] = [0, 1, 2].map(|place| row.time(place));
    let mut entries: Vec<String> = [0, 1, 2].map(seeds).into();
    entries.extend([short, middle, long].map(seconds));
    entries.extend([short, middle].map(|time| ratio(time, long)));
    entries.push(compared(row));
    entries
}

/// Measures a set at all limits and prints its line.
fn measure(report: &mut Report, plan: &Plan, kind: Option<Kind>) -> Result<LimitRow, String> {
    let case = case(kind)?;
    let name = name(kind);
    let at = rows(limited(&case).each_ref(), plan, &[]).map_err(|why| format!("{name}: {why}"))?;
    let row = LimitRow { kind, name, at };
    report.line(&line(&[labels(kind, &case), entries(&row)].concat()));
    Ok(row)
}

/// What is measured, and what holds of all sets.
fn opening(report: &mut Report) {
    report.paragraph("## Window limits");
    report.paragraph("The sets of the first section, cut into windows of at most W slices, for W = 16, 64 and 256: a setting of the call (document 02, R-3); most testers count to 64. Of each set the three limits are measured by turns; \"16 / 256\" and \"64 / 256\" are the library's times at 16 and at 64 over its time at 256. \"refused by 8 with N\": the set cannot be cut into windows within the limit; the longest start that can be has N slices. \"second agrees at\": the limits at which the second program ended in time too; its seeds or its refusal are the same there, or the run fails.");
    report.paragraph("A window within one limit is within every higher one. So at a lower limit no set takes fewer seeds, and none is cut that is refused by 8 at a higher one. A set of 1,024 slices takes at least 64 seeds at 16, and at least 16 at 64.");
}

/// What is seen. The numbers of seeds are the same in every run, and no time is named.
fn closing(report: &mut Report) {
    report.paragraph("Seeds: from 5 to 30 % specified bits, each set that is cut takes as many at 64 as at 256; of the sparser ones some take more. Of the full slices the last window takes as many as the limit allows and each window before it one, so a lower limit leaves more windows before it. At 16 all sets of 1 % and 2 % take the least that their number of slices allows, and the spread ones of 30 % as many as at 256. No set that can be cut at 256 is refused at a lower limit.");
    report.paragraph("Time: it changes most where few bits are specified. What a sparse set takes longer at 256 than at 64 goes into the search of windows of more than 64 slices; the sets that are stopped at 256 end at 64. From 10 % on the bits end most windows sooner, and the time at 64 is nearly that at 256, but for two sets: in that of full slices the bits allow every window within the limit, and before the last window all lengths are tried down to 1, fewer lengths from more starts at a lower limit; the refused one fails at its first slice, and what changes is the tables of masks, which have a row for each slice of a window and one for the stop.");
}

/// All sets.
pub fn section(report: &mut Report, plan: &Plan) -> Result<Vec<LimitRow>, String> {
    let plan = &Plan {
        columns: vec![Column::Ours, Column::Second],
        ..plan.clone()
    };
    opening(report);
    report.line("");
    report.line(&head());
    let rows: Vec<LimitRow> = all()
        .map(|kind| measure(report, plan, kind))
        .collect::<Result<_, _>>()?;
    limits_summary::table(report, &rows);
    closing(report);
    Ok(rows)
}
