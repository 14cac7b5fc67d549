// The section on hard windows: all x, near the length where covering ends.

use crate::answer::Answer;
use crate::case::Case;
use crate::columns::Column;
use crate::report::Report;
use crate::row::{row, Plan, Times};
use crate::solver;
use crate::table::{digits, Table};
use crate::windows::{lengths, longest, wide, window, POSITIONS, REGISTERS};

/// A window that was measured.
pub struct WindowRow {
    pub cells: usize,
    pub positions: u32,
    pub length: usize,
    /// The greatest length that was found to have a seed.
    pub longest: usize,
    pub times: Times,
}

const LABELS: [&str; 5] = ["positions", "cells", "chains", "slices", "seed"];

/// The part of the limit that finding the lengths may take for each try.
const TRY: f64 = 0.1;

/// The columns that are left out where they were stopped on an easier row.
pub fn may_be_left(column: &Column) -> bool {
    !matches!(column, Column::Ours | Column::Fast)
}

fn table(plan: &Plan) -> Table<'_> {
    Table {
        labels: &LABELS,
        columns: &plan.columns,
        notes: &[],
    }
}

/// Measures a window and prints its row.
fn measure(
    report: &mut Report,
    plan: &Plan,
    case: &Case,
    left: &[Column],
) -> Result<Times, String> {
    let mut labels = vec![
        case.positions().to_string(),
        case.cells.to_string(),
        case.masks.len().to_string(),
        case.specified.len().to_string(),
    ];
    let (times, answer) =
        row(case, plan, left).map_err(|why| format!("window {}: {why}", labels.join(", ")))?;
    labels.push(answer.map_or("–".to_string(), |answer: Answer| {
        answer.of_windows_table()
    }));
    report.line(&table(plan).row(&labels, &times, &[]));
    Ok(times)
}

/// The windows of one number of positions: cells rise, and lengths with them.
fn of_positions(
    report: &mut Report,
    plan: &Plan,
    positions: u32,
) -> Result<Vec<WindowRow>, String> {
    let (mut rows, mut left) = (Vec::new(), Vec::new());
    for register in REGISTERS {
        let longest = longest(register, positions, TRY * plan.limits.limit)?;
        for length in lengths(longest) {
            let case = window(register, positions, length);
            let times = measure(report, plan, &case, &left)?;
            left.extend(times.stopped().filter(may_be_left));
            rows.push(WindowRow {
                cells: register.0,
                positions,
                length,
                longest,
                times,
            });
        }
    }
    Ok(rows)
}

/// What the solver's columns say, and how long its process takes on a text without clauses.
fn on_solver(report: &mut Report) -> Result<(), String> {
    let before = solver::used();
    solver::solve("p cnf 1 0\n", 1.0)?;
    let start = digits(solver::used() - before);
    report.paragraph(&format!("SAT: cryptominisat5, with the equations as XOR clauses and each slice's clause over one variable for each position of the stop. \"SAT decides\" is the time until it is known whether there is a seed; \"SAT\" is the time to the lowest, found from the highest cell down by trying 0 wherever the last model has 1. Both are the CPU time of its processes, one for each call; a process with nothing to solve takes {start} s."));
    Ok(())
}

/// All hard windows.
pub fn section(report: &mut Report, plan: &Plan) -> Result<Vec<WindowRow>, String> {
    report.paragraph("## Windows");
    report.paragraph("Single windows of x alone: the search has nothing but the stop to go by. Registers of full period, random masks, a random stop slice of 1 to 6 positions. For each number of positions and cells: the greatest length up to 256 for which the library finds a seed, one slice less, and one more. That length is found by halving, which is exact since a part of a covered window of x is covered; a try has a tenth of the limit, and where tries were stopped the length is the greatest that was found in time. Where 256 slices have a seed, only that. The last row has 64 cells and 110 slices.");
    report.paragraph("All columns but ours and fast are left out (–) where they were stopped on a row of fewer cells, or of fewer slices, with as many positions.");
    if plan.columns.contains(&Column::Sat) {
        on_solver(report)?;
    }
    report.line("");
    report.line(&table(plan).head());
    let mut rows = Vec::new();
    for positions in POSITIONS {
        rows.append(&mut of_positions(report, plan, positions)?);
    }
    let case = wide();
    rows.push(WindowRow {
        cells: case.cells,
        positions: case.positions(),
        length: case.specified.len(),
        longest: 0,
        times: measure(report, plan, &case, &[])?,
    });
    Ok(rows)
}
