// The plots of the section on window limits: the time of a call and the number of seeds, by the limit.

use crate::limits::{LimitRow, LIMITS};
use crate::measure::Time;
use crate::sets::Kind;
use crate::svg::{Plot, Point, Series, SECONDS};

/// The densities that are drawn, and their colours.
const DRAWN: [(u64, &str); 5] = [
    (1, "#1f5fa8"),
    (2, "#2e8b57"),
    (5, "#a8327d"),
    (10, "#c2571a"),
    (30, "#7a4fa3"),
];

/// The chains that are drawn, and whether with a broken line.
const CHAINS: [(usize, bool); 2] = [(64, false), (20, true)];

/// What is drawn of a set, by the place of a limit.
type Value = fn(&LimitRow, usize) -> Option<(f64, bool)>;

/// The time, and whether the call was stopped then.
fn time(row: &LimitRow, place: usize) -> Option<(f64, bool)> {
    match row.time(place) {
        Time::Took(seconds) => Some((seconds, false)),
        Time::Stopped(limit) => Some((limit, true)),
        Time::Left => None,
    }
}

fn seeds(row: &LimitRow, place: usize) -> Option<(f64, bool)> {
    Some((row.seeds(place)? as f64, false))
}

/// The points of a set, from the lowest limit on; they end where there is no value.
fn points(row: &LimitRow, value: Value) -> Vec<Point> {
    let point = |(place, limit): (usize, usize)| {
        let (y, stopped) = value(row, place)?;
        let x = limit as f64;
        Some(Point { x, y, stopped })
    };
    LIMITS.into_iter().enumerate().map_while(point).collect()
}

/// One curve for each density and number of chains, of the spread sets of 1,024 slices.
fn curves(rows: &[LimitRow], value: Value) -> Vec<Series> {
    let mut series = Vec::new();
    for (chains, dashed) in CHAINS {
        for (percent, colour) in DRAWN {
            let kind = Kind {
                chains,
                percent,
                clustered: false,
                slices: 1_024,
            };
            let found = rows.iter().filter(|row| row.kind == Some(kind));
            series.extend(found.map(|row| Series {
                name: format!("{percent} %, {chains} chains"),
                colour,
                dashed,
                runs: vec![points(row, value)],
            }));
        }
    }
    series
}

fn plot(rows: &[LimitRow], title: &str, y_label: &'static str, value: Value) -> Plot {
    Plot {
        title: title.to_string(),
        more: "64 cells, 64 and 20 chains, 1,024 slices, spread, by the part of the bits that is specified".to_string(),
        x_label: "most slices of a window",
        y_label,
        ticks: LIMITS.map(|limit| limit as f64).into(),
        logarithmic: true,
        series: curves(rows, value),
    }
}

/// Both plots, with the names of their files.
pub fn all(rows: &[LimitRow]) -> Vec<(&'static str, Plot)> {
    let times = plot(rows, "One set, by the window limit", SECONDS, time);
    let seeds = plot(
        rows,
        "The seeds of one set, by the window limit",
        "seeds",
        seeds,
    );
    vec![
        ("benchmarks-limits.svg", times),
        ("benchmarks-limits-seeds.svg", seeds),
    ]
}
