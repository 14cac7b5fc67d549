// The section on what the fewest seeds save over document 004's procedure.

use crate::answer::Answer;
use crate::published::Stuck;
use crate::report::Report;
use crate::sets_section::SetRow;

/// The fewest seeds, those of the procedure, and the part that is saved.
fn saved(row: &SetRow) -> [String; 3] {
    let fewest = row.answer.as_ref().and_then(Answer::seeds);
    let told = row.answer.as_ref().map(Answer::of_sets_table);
    let told = told.unwrap_or("–".to_string());
    match (&row.published, fewest) {
        (Ok(count), Some(fewest)) => {
            let part = 100.0 * (*count as f64 - fewest as f64) / *count as f64;
            [told, count.to_string(), format!("{part:.1} %")]
        }
        (Ok(count), None) => [told, count.to_string(), "–".to_string()],
        (Err(Stuck(place)), _) => {
            let stuck = format!("cannot encode slice {place}");
            [told, stuck, "–".to_string()]
        }
    }
}

pub fn section(report: &mut Report, rows: &[SetRow]) {
    report.paragraph("## What fewest buys");
    report.paragraph("The number of seeds that the exact columns give, which is the fewest, beside that of document 004's own procedure (section IV): slices are taken one by one; a slice that is compatible with the stop gets one of its x set at once so that it is not; after each slice it is examined whether the stop can follow; a window ends before the first slice that fails. 004 leaves the stop off the last seed, so its last window is open as well: behind the set's last slice nothing is examined. Behind every other slice it is, since the procedure does not look ahead: of the full slices of a run no two can be followed by the stop, so it takes them one by one up to the last two, while the fewest seeds end with one for the last 256. 004 leaves open which x is set: here the leftmost with which the slice and the stop behind it, where it has one, can be met. Slices stay in the order of the set, and a window has at most 256 slices, as document 01 says. Each of its windows was run and found covered by the same closing rule. Slices count from 0. A dash: no exact column ended within the limit, or there is nothing to compare.");
    report.line("");
    report.line("| set | fewest seeds | by 004's procedure | saved |");
    report.line("|---|---|---|---|");
    for row in rows {
        let [fewest, count, part] = saved(row);
        report.line(&format!("| {} | {fewest} | {count} | {part} |", row.name));
    }
}
