// The section on sets: the table of times.

use crate::answer::Answer;
use crate::case::Case;
use crate::columns::Column;
use crate::published::{self, Stuck};
use crate::report::Report;
use crate::row::{row, Plan, Times};
use crate::sets::{all, case, Kind};
use crate::table::Table;

/// A set that was measured; without a kind, it is the set of full slices.
pub struct SetRow {
    pub kind: Option<Kind>,
    pub name: String,
    pub times: Times,
    pub answer: Option<Answer>,
    /// The number of seeds by document 004's procedure.
    pub published: Result<usize, Stuck>,
}

const LABELS: [&str; 6] = [
    "chains",
    "% specified",
    "",
    "slices",
    "positions of the stop",
    "seeds",
];

/// The times of an earlier prototype of the algorithm, on other sets of the same kind: chains, percentage, clustered, seconds.
const PROTOTYPE: [(usize, u64, bool, f64); 6] = [
    (64, 1, false, 0.29),
    (64, 1, true, 0.23),
    (32, 2, false, 0.23),
    (20, 2, true, 16.0),
    (20, 5, false, 0.0015),
    (64, 30, false, 0.0025),
];

fn prototype(kind: Option<Kind>) -> String {
    let same = |kind: Kind, &(chains, percent, clustered, _): &(usize, u64, bool, f64)| {
        kind == Kind {
            chains,
            percent,
            clustered,
            slices: 1_024,
        }
    };
    let found = kind.and_then(|kind| PROTOTYPE.iter().find(|known| same(kind, known)));
    found.map_or(String::new(), |known| known.3.to_string())
}

fn spread(kind: Kind) -> &'static str {
    if kind.clustered {
        "clustered"
    } else {
        "spread"
    }
}

/// What a set is called in sentences.
pub fn name(kind: Option<Kind>) -> String {
    match kind {
        Some(kind) => format!(
            "{} chains, {} % {}, {} slices",
            kind.chains,
            kind.percent,
            spread(kind),
            kind.slices
        ),
        None => "57 chains, 300 full slices of a run".to_string(),
    }
}

/// What a table says of a set before its answer.
pub fn labels(kind: Option<Kind>, case: &Case) -> Vec<String> {
    let (percent, how) = match kind {
        Some(kind) => (kind.percent, spread(kind)),
        None => (100, "a run"),
    };
    vec![
        case.masks.len().to_string(),
        percent.to_string(),
        how.to_string(),
        case.specified.len().to_string(),
        case.positions().to_string(),
    ]
}

/// Whether enumeration was stopped on a set of the same kind that is as dense or denser, and as short or shorter.
fn stopped_before(rows: &[SetRow], kind: Kind) -> bool {
    rows.iter().any(|row| {
        let easier = row.kind.is_some_and(|other| {
            (other.chains, other.clustered) == (kind.chains, kind.clustered)
                && other.percent >= kind.percent
                && other.slices <= kind.slices
        });
        let stopped = row.times.seconds(Column::Enumeration).is_none();
        easier && stopped
    })
}

/// Measures one set and prints its row.
pub fn measure(
    report: &mut Report,
    plan: &Plan,
    kind: Option<Kind>,
    rows: &[SetRow],
) -> Result<SetRow, String> {
    let case = case(kind)?;
    let left = match kind {
        Some(kind) if stopped_before(rows, kind) => vec![Column::Enumeration],
        _ => Vec::new(),
    };
    let mut labels = labels(kind, &case);
    let name = name(kind);
    let (times, answer) = row(&case, plan, &left).map_err(|why| format!("{name}: {why}"))?;
    labels.push(
        answer
            .as_ref()
            .map_or("–".to_string(), Answer::of_sets_table),
    );
    report.line(&table(plan).row(&labels, &times, &[prototype(kind)]));
    Ok(SetRow {
        kind,
        name,
        times,
        answer,
        published: published::seeds(&case)?,
    })
}

fn table(plan: &Plan) -> Table<'_> {
    Table {
        labels: &LABELS,
        columns: &plan.columns,
        notes: &["prototype, s"],
    }
}

/// The head of the table of times.
pub fn head(report: &mut Report, plan: &Plan) {
    report.paragraph("## Sets");
    report.paragraph("64 cells with taps d800000000000000, masks and slices from a seeded generator, the stop slice by the steps and handed in to every column. The window that ends a set is open: its slices agree and none shows the stop, and no stop need follow (document 02, R-5). In a spread set each bit is specified with the same chance. In a clustered one, runs of 8 slices with four times the density, at most 100 %, stand before 24 slices of x each. The last row has 300 full slices of 57 chains that one run of the register delivers, and a stop slice of six positions that the run does not show: its last 256 slices are one open window, and before it each seed delivers one slice.");
    report.paragraph("\"prototype\": an earlier prototype's times on other sets of the same kind, to be set beside \"fast\". Where fast takes more than 1.5 times as long in some runs: the prototype's set of 20 chains at 5 % had a stop of three positions, this one has two; and at 30 % most of the time is the entering of equations, which is done twice here, forced positions going into a space of their own. Enumeration is left out (–) where it was stopped on a set of the same kind that is as dense or denser and no longer.");
    report.line("");
    report.line(&table(plan).head());
}

/// All sets.
pub fn section(report: &mut Report, plan: &Plan) -> Result<Vec<SetRow>, String> {
    head(report, plan);
    let mut rows = Vec::new();
    for kind in all() {
        let row = measure(report, plan, kind, &rows)?;
        rows.push(row);
    }
    Ok(rows)
}
