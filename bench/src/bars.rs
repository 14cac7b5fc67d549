// The section of bars: the greatest and least ratios of the run.

use crate::columns::Column;
use crate::measure::Time;
use crate::report::Report;
use crate::sets::Kind;
use crate::sets_section::SetRow;
use crate::table::digits;
use crate::windows_section::WindowRow;

const NONE: &str = "not measured in this run";

/// The greatest ratio of the library to the unproved program, of sets that take the library more than a millisecond.
fn greatest_over_fast(rows: &[SetRow]) -> Option<(f64, &SetRow)> {
    let ratio = |row: &SetRow| {
        let ours = row.times.seconds(Column::Ours)?;
        let fast = row.times.seconds(Column::Fast)?;
        (ours > 1e-3).then_some(ours / fast)
    };
    let ratios = rows.iter().filter_map(|row| Some((ratio(row)?, row)));
    ratios.max_by(|a, b| a.0.total_cmp(&b.0))
}

/// The first version's time over the library's on a spread set of 1,024 slices.
fn over_first(rows: &[SetRow], chains: usize, percent: u64) -> Option<String> {
    let wanted = Some(Kind {
        chains,
        percent,
        clustered: false,
        slices: 1_024,
    });
    let row = rows.iter().find(|row| row.kind == wanted)?;
    let ours = row.times.seconds(Column::Ours)?;
    match row.times.of(Column::First) {
        Time::Took(first) => Some(digits(first / ours)),
        Time::Stopped(limit) => Some(format!("> {}", digits(limit / ours))),
        Time::Left => None,
    }
}

/// The least ratio of the SAT solver to the library, of windows that the solver finishes.
fn least_of_solver(rows: &[WindowRow]) -> Option<(f64, &WindowRow)> {
    let ratio =
        |row: &WindowRow| Some(row.times.seconds(Column::Sat)? / row.times.seconds(Column::Ours)?);
    let ratios = rows.iter().filter_map(|row| Some((ratio(row)?, row)));
    ratios.min_by(|a, b| a.0.total_cmp(&b.0))
}

/// The bars, computed from the rows.
pub fn section(report: &mut Report, sets: &[SetRow], windows: &[WindowRow]) {
    report.paragraph("## Bars");
    let fast = greatest_over_fast(sets);
    let fast = fast.map(|(ratio, row)| format!("{} ({})", digits(ratio), row.name));
    let solver = least_of_solver(windows).map(|(ratio, row)| {
        format!(
            "{} ({} cells, {} positions, {} slices)",
            digits(ratio),
            row.cells,
            row.positions,
            row.length
        )
    });
    let bars = [
        (
            "greatest ours / fast, of sets that take the library more than a millisecond",
            fast,
        ),
        (
            "first version / ours, 64 chains, 1 % spread, 1024 slices",
            over_first(sets, 64, 1),
        ),
        (
            "first version / ours, 32 chains, 2 % spread, 1024 slices",
            over_first(sets, 32, 2),
        ),
        (
            "least SAT / ours, of hard windows that the solver finishes",
            solver,
        ),
    ];
    report.line("");
    for (what, value) in bars {
        report.line(&format!("- {what}: {}", value.unwrap_or(NONE.to_string())));
    }
}
