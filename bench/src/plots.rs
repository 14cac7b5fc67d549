// The plots of the run: cost against cells, stop positions, slices and density; of stop slices against density. Those of window limits are in limits_plots.rs.

use crate::columns::Column;
use crate::measure::Time;
use crate::row::Times;
use crate::sets::Kind;
use crate::sets_section::SetRow;
use crate::stops::PERCENT;
use crate::stops_section::StopRow;
use crate::svg::{Plot, Point, Series, SECONDS};
use crate::windows_section::WindowRow;

/// The columns that are drawn, and their colours.
const DRAWN: [(Column, &str); 5] = [
    (Column::Ours, "#1f5fa8"),
    (Column::Fast, "#2e8b57"),
    (Column::Marked, "#a8327d"),
    (Column::Second, "#c2571a"),
    (Column::First, "#7a4fa3"),
];

/// A measured place of an x axis.
type Measured<'a> = (f64, &'a Times);

/// The points of a column, in runs between the places where it was left out.
fn runs(column: Column, places: &[Measured]) -> Vec<Vec<Point>> {
    let point = |&(x, times): &Measured| match times.of(column) {
        Time::Took(y) => Some(Point {
            x,
            y,
            stopped: false,
        }),
        Time::Stopped(y) => Some(Point {
            x,
            y,
            stopped: true,
        }),
        Time::Left => None,
    };
    let points: Vec<Option<Point>> = places.iter().map(point).collect();
    let runs = points.split(Option::is_none).filter(|run| !run.is_empty());
    runs.map(|run| run.iter().flatten().copied().collect())
        .collect()
}

/// One curve for each column that was measured there; `named` is what the legend adds.
fn curves(places: &[Measured], named: &str, dashed: bool) -> Vec<Series> {
    let series = |(column, colour): (Column, &'static str)| Series {
        name: format!("{}{named}", column.name()),
        colour,
        dashed,
        runs: runs(column, places),
    };
    let all = DRAWN.into_iter().map(series);
    all.filter(|series| !series.runs.is_empty()).collect()
}

/// The sets that pass a test, in the order of a number.
fn sets(rows: &[SetRow], x: fn(Kind) -> f64, test: impl Fn(Kind) -> bool) -> Vec<Measured<'_>> {
    let mut places = Vec::new();
    for row in rows {
        if let Some(kind) = row.kind.filter(|&kind| !kind.clustered && test(kind)) {
            places.push((x(kind), &row.times));
        }
    }
    places.sort_by(|a: &Measured, b: &Measured| a.0.total_cmp(&b.0));
    places
}

/// The windows of one slice more than the longest that has a seed, or of 256.
fn ends(
    rows: &[WindowRow],
    test: impl Fn(&&WindowRow) -> bool,
) -> impl Iterator<Item = &WindowRow> {
    let at_end = |row: &&WindowRow| row.longest > 0 && row.length == (row.longest + 1).min(256);
    rows.iter().filter(at_end).filter(test)
}

fn against_cells(rows: &[WindowRow]) -> Plot {
    let of = |positions: u32| -> Vec<Measured> {
        ends(rows, move |row| row.positions == positions)
            .map(|row| (row.cells as f64, &row.times))
            .collect()
    };
    let mut series = curves(&of(3), ", 3 positions", false);
    series.append(&mut curves(&of(2), ", 2 positions", true));
    Plot {
        title: "One window of x, by the cells of the register".to_string(),
        more: "one slice more than the longest window for which a seed was found".to_string(),
        x_label: "cells",
        y_label: SECONDS,
        ticks: vec![24.0, 28.0, 32.0, 36.0, 40.0],
        logarithmic: false,
        series,
    }
}

fn against_positions(rows: &[WindowRow]) -> Plot {
    let of = |cells: usize| -> Vec<Measured> {
        ends(rows, move |row| row.cells == cells)
            .map(|row| (f64::from(row.positions), &row.times))
            .collect()
    };
    let mut series = curves(&of(32), ", 32 cells", false);
    series.append(&mut curves(&of(24), ", 24 cells", true));
    Plot {
        title: "One window of x, by the specified positions of the stop slice".to_string(),
        more: "one slice more than the longest window for which a seed was found, or 256 slices where they have one".to_string(),
        x_label: "specified positions of the stop slice",
        y_label: SECONDS,
        ticks: vec![1.0, 2.0, 3.0, 4.0, 5.0, 6.0],
        logarithmic: false,
        series,
    }
}

fn against_slices(rows: &[SetRow]) -> Plot {
    let of = |percent| {
        let test = move |kind: Kind| kind.chains == 64 && kind.percent == percent;
        sets(rows, |kind| kind.slices as f64, test)
    };
    let mut series = curves(&of(1), ", 1 %", false);
    series.append(&mut curves(&of(5), ", 5 %", true));
    Plot {
        title: "One set, by its number of slices".to_string(),
        more: "64 cells, 64 chains, 1 % and 5 % of the bits specified, spread".to_string(),
        x_label: "slices of the set",
        y_label: SECONDS,
        ticks: vec![256.0, 512.0, 1_024.0, 2_048.0],
        logarithmic: true,
        series,
    }
}

fn against_density(rows: &[SetRow]) -> Plot {
    let of = |chains| {
        let test = move |kind: Kind| kind.chains == chains && kind.slices == 1_024;
        sets(rows, |kind| kind.percent as f64, test)
    };
    let mut series = curves(&of(64), ", 64 chains", false);
    series.append(&mut curves(&of(32), ", 32 chains", true));
    Plot {
        title: "One set, by the part of its bits that is specified".to_string(),
        more: "64 cells, 64 and 32 chains, 1,024 slices, spread".to_string(),
        x_label: "% specified",
        y_label: SECONDS,
        ticks: vec![1.0, 2.0, 5.0, 10.0, 30.0],
        logarithmic: true,
        series,
    }
}

/// The plot of the section on stop slices, and its name.
pub fn of_stops(rows: &[StopRow]) -> Vec<(&'static str, Plot)> {
    vec![("benchmarks-stops.svg", stops_against_density(rows))]
}

fn stops_against_density(rows: &[StopRow]) -> Plot {
    let places: Vec<Measured> = rows
        .iter()
        .filter_map(|row| Some((row.percent? as f64, &row.times)))
        .collect();
    Plot {
        title: "One stop slice, by the part of the set's bits that is specified".to_string(),
        more: "64 chains, 2,048 random slices".to_string(),
        x_label: "% specified",
        y_label: SECONDS,
        ticks: PERCENT.map(|percent| percent as f64).into(),
        logarithmic: true,
        series: curves(&places, "", false),
    }
}

/// The plots of the section on windows, and their names.
pub fn of_windows(rows: &[WindowRow]) -> Vec<(&'static str, Plot)> {
    vec![
        ("benchmarks-cells.svg", against_cells(rows)),
        ("benchmarks-positions.svg", against_positions(rows)),
    ]
}

/// The plots of the section on sets, and their names.
pub fn of_sets(rows: &[SetRow]) -> Vec<(&'static str, Plot)> {
    vec![
        ("benchmarks-slices.svg", against_slices(rows)),
        ("benchmarks-density.svg", against_density(rows)),
    ]
}
