// The second table of the section on window limits: all sets together, one line for each limit.

use crate::answer::Answer;
use crate::limits::{LimitRow, LIMITS};
use crate::measure::Time;
use crate::report::Report;
use crate::table::{digits, line, rule};

/// The place of the limit that the others are compared with.
const LAST: usize = LIMITS.len() - 1;

const LABELS: [&str; 7] = [
    "W",
    "sets cut",
    "refused by 8",
    "stopped",
    "as many seeds as at 256",
    "most seeds, over those at 256",
    "longest call, s",
];

/// How many sets pass a test.
fn count(rows: &[LimitRow], test: impl Fn(&LimitRow) -> bool) -> usize {
    rows.iter().filter(|row| test(row)).count()
}

/// The sets that are cut at a limit and at the last, with both numbers of seeds.
fn cut_at_both(rows: &[LimitRow], place: usize) -> Vec<(usize, usize, &LimitRow)> {
    rows.iter()
        .filter_map(|row| Some((row.seeds(place)?, row.seeds(LAST)?, row)))
        .collect()
}

/// How many of them take as many seeds, and the greatest ratio of the two numbers.
fn seeds(rows: &[LimitRow], place: usize) -> [String; 2] {
    let both = cut_at_both(rows, place);
    let same = both.iter().filter(|(here, last, _)| here == last).count();
    let ratios = both
        .iter()
        .map(|&(here, last, row)| (here as f64 / last as f64, row));
    let most = ratios.max_by(|a, b| a.0.total_cmp(&b.0));
    let most = most.map(|(ratio, row)| format!("{} ({})", digits(ratio), row.name));
    [
        format!("{same} of {}", both.len()),
        most.unwrap_or("–".to_string()),
    ]
}

/// The longest call that ended.
fn longest(rows: &[LimitRow], place: usize) -> String {
    let times = rows
        .iter()
        .filter_map(|row| Some((row.time(place).seconds()?, row)));
    let longest = times.max_by(|a, b| a.0.total_cmp(&b.0));
    let longest = longest.map(|(time, row)| format!("{} ({})", digits(time), row.name));
    longest.unwrap_or("–".to_string())
}

/// The line of a limit.
fn limit(rows: &[LimitRow], place: usize) -> String {
    let refused = |row: &LimitRow| matches!(row.answer(place), Some(Answer::Refused(8, _)));
    let stopped = |row: &LimitRow| matches!(row.time(place), Time::Stopped(_));
    let cut = |row: &LimitRow| row.seeds(place).is_some();
    let [same, most] = match place {
        LAST => ["–", "–"].map(String::from),
        _ => seeds(rows, place),
    };
    line(&[
        LIMITS[place].to_string(),
        count(rows, cut).to_string(),
        count(rows, refused).to_string(),
        count(rows, stopped).to_string(),
        same,
        most,
        longest(rows, place),
    ])
}

/// The table, and how often the second program agreed.
pub fn table(report: &mut Report, rows: &[LimitRow]) {
    report.paragraph("All sets together; \"stopped\" and \"longest call\" are the library's. The numbers of seeds are compared in sets that are cut at both limits.");
    report.line("");
    report.line(&line(&LABELS.map(String::from)));
    report.line(&rule(LABELS.len()));
    for place in 0..LIMITS.len() {
        report.line(&limit(rows, place));
    }
    let compared = |place| count(rows, |row| row.compared(place));
    let compared: usize = (0..LIMITS.len()).map(compared).sum();
    let all = LIMITS.len() * rows.len();
    report.paragraph(&format!("The second program ended in time, beside the library, on {compared} of these {all} pairs of a set and a limit, and gave the same answer each time."));
}
