// The section on degenerate registers: windows of x and sparse sets.

use crate::case::{Ask, Case};
use crate::columns::Column;
use crate::degenerate;
use crate::report::Report;
use crate::row::{row, Plan};
use crate::table::Table;
use crate::windows_section::may_be_left;

fn table(plan: &Plan) -> Table<'_> {
    Table {
        labels: &["register", "", "positions", "slices", "seed, or seeds"],
        columns: &plan.columns,
        notes: &[],
    }
}

/// The windows of all registers, behind the section's text.
pub fn windows(report: &mut Report, plan: &Plan) -> Result<(), String> {
    report.paragraph("## Degenerate registers");
    report.paragraph("64 cells. Ring: the last cell alone is tapped, so slices repeat after 64 steps and no window of 64 or more that is given singly has a seed. Equal masks: all chains alike, so a stop of several equal bits says what one says. One chain: a stop of one position fixes every slice before it. Windows are all x. All columns but ours and fast are left out (–) where they were stopped on an earlier window, or set, of the same register, enumeration also on those of an earlier register.");
    report.line("");
    report.line(&table(plan).head());
    let mut left = Vec::new();
    for register in degenerate::registers() {
        left.retain(|column| *column == Column::Enumeration);
        for (positions, length) in degenerate::windows(&register) {
            let case = degenerate::window(&register, positions, length);
            let named = (register.name, "window of x");
            measure(report, plan, named, &case, &mut left)?;
        }
    }
    Ok(())
}

/// The sets of all registers.
pub fn sets(report: &mut Report, plan: &Plan) -> Result<(), String> {
    report.paragraph("Sets have 256 slices and the stop slice by the steps; with equal masks or one chain all their specified bits are 0, since otherwise there is no stop slice or no cutting. Such a set is covered by state 0 alone, its one seed, with no stop behind it.");
    report.line("");
    report.line(&table(plan).head());
    let mut left = Vec::new();
    for register in degenerate::registers() {
        left.retain(|column| *column == Column::Enumeration);
        for percent in degenerate::PERCENT {
            let case = degenerate::set(&register, percent)?;
            let what = format!("set, {percent} %");
            let named = (register.name, what.as_str());
            measure(report, plan, named, &case, &mut left)?;
        }
    }
    Ok(())
}

/// Measures a window or set of a degenerate register and prints its row. The columns that it stops are left out of later rows.
fn measure(
    report: &mut Report,
    plan: &Plan,
    (name, what): (&str, &str),
    case: &Case,
    left: &mut Vec<Column>,
) -> Result<(), String> {
    let (times, answer) = row(case, plan, left).map_err(|why| format!("{name}, {what}: {why}"))?;
    left.extend(times.stopped().filter(may_be_left));
    let told = answer.map(|answer| match case.ask {
        Ask::Window => answer.of_windows_table(),
        _ => answer.of_sets_table(),
    });
    let labels = [
        name.to_string(),
        what.to_string(),
        case.positions().to_string(),
        case.specified.len().to_string(),
        told.unwrap_or("–".to_string()),
    ];
    report.line(&table(plan).row(&labels, &times, &[]));
    Ok(())
}
