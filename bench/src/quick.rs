// `bench quick`: a few small rows of each kind, measured once and compared. It writes nothing and ends with `N passed, M failed`.

use crate::answer::Answer;
use crate::case::{Ask, Case};
use crate::columns::Column;
use crate::degenerate;
use crate::last_section::last_window;
use crate::library;
use crate::measure::Limits;
use crate::published;
use crate::row::{row, Plan};
use crate::sets::{full_slices, set, Kind};
use crate::stops;
use crate::windows::{window, REGISTERS};
use seeds::LONGEST_WINDOW;
use std::process::ExitCode;

const LIMITS: Limits = Limits {
    limit: 2.0,
    least: 0.0,
};

/// The sets: chains, percentage, clustered, slices.
const SETS: [(usize, u64, bool, usize); 6] = [
    (20, 30, false, 128),
    (20, 10, true, 128),
    (32, 10, false, 256),
    (64, 30, true, 64),
    (64, 5, false, 256),
    (64, 5, true, 256),
];

/// The windows of 24 cells: positions of the stop and length.
const WINDOWS: [(u32, usize); 7] = [
    (1, 12),
    (1, 30),
    (2, 20),
    (2, 70),
    (3, 60),
    (4, 100),
    (6, 256),
];

fn sets() -> Result<Vec<(String, Case)>, String> {
    let mut cases = Vec::new();
    for (chains, percent, clustered, slices) in SETS {
        let kind = Kind {
            chains,
            percent,
            clustered,
            slices,
        };
        let name = format!("set of {chains} chains, {percent} %, {slices} slices");
        cases.push((name, set(kind)?));
    }
    cases.push(("set of full slices".to_string(), full_slices()));
    Ok(cases)
}

/// A set of 64 chains.
const SPREAD: Kind = Kind {
    chains: 64,
    percent: 5,
    clustered: false,
    slices: 256,
};

/// The set with a lower window limit, at which it takes more seeds than at 256.
fn limited() -> Result<(String, Case), String> {
    let case = Case {
        window_limit: 16,
        ..set(SPREAD)?
    };
    Ok((
        "set of 64 chains, 5 %, 256 slices, window limit 16".to_string(),
        case,
    ))
}

/// The last window of the set, open and closed.
fn last() -> Result<Vec<(String, Case)>, String> {
    let case = set(SPREAD)?;
    let Answer::Seeds(seeds) = library::set(&case) else {
        return Err("the set of 64 chains is refused".to_string());
    };
    let before = seeds.len().saturating_sub(1);
    let [open, closed] = last_window(&case, &seeds[..before]);
    Ok(vec![
        ("last window as a set".to_string(), open),
        ("last window given singly".to_string(), closed),
    ])
}

fn windows() -> Vec<(String, Case)> {
    let mut cases = Vec::new();
    for (positions, length) in WINDOWS {
        let name = format!("window of {length} slices, {positions} positions");
        cases.push((name, window(REGISTERS[0], positions, length)));
    }
    cases
}

fn degenerate() -> Result<Vec<(String, Case)>, String> {
    let mut cases = Vec::new();
    for register in degenerate::registers() {
        for length in [16, 256] {
            let name = format!("{}, window of {length} slices", register.name);
            cases.push((name, degenerate::window(&register, 1, length)));
        }
        let name = format!("{}, set", register.name);
        cases.push((name, degenerate::set(&register, 5)?));
        let name = format!("{}, set of 256 slices of x", register.name);
        let window = degenerate::window(&register, 1, 256);
        let ask = Ask::Set;
        cases.push((name, Case { ask, ..window }));
    }
    Ok(cases)
}

fn stops() -> Vec<(String, Case)> {
    let sets = [
        stops::random(20, 30, 128),
        stops::patterns(8, 5),
        stops::patterns(5, 5),
        stops::all_but_last(5, 64),
    ];
    let named = sets.map(|set| {
        let chains = set.case.masks.len();
        (
            format!("stop slice of {chains} chains, {}", set.name),
            set.case,
        )
    });
    named.into()
}

/// The columns that are left out: enumeration where it takes long, on degenerate registers, and the library of an earlier commit where the window limit is not 256, since it may not have that setting.
fn left(case: &Case) -> Vec<Column> {
    let mut left = Vec::new();
    if case.cells == 64 && case.masks.len() <= 16 {
        left.push(Column::Enumeration);
    }
    if case.window_limit != LONGEST_WINDOW {
        left.push(Column::First);
    }
    left
}

/// Measures a case in all columns, and gives the number of those that answer. It passes if two or more columns answer, all alike, and document 004's procedure has no fewer seeds for a set.
fn passes(case: &Case) -> Result<usize, String> {
    let plan = Plan {
        columns: Column::here(case.ask),
        limits: LIMITS,
        rounds: 1,
    };
    let (times, answer) = row(case, &plan, &left(case))?;
    if times.answered() < 2 {
        return Err("fewer than two columns answer".to_string());
    }
    if case.ask != Ask::Set {
        return Ok(times.answered());
    }
    let fewest = answer.as_ref().and_then(Answer::seeds);
    match (published::seeds(case)?, fewest) {
        (Ok(count), Some(fewest)) if count >= fewest => Ok(times.answered()),
        (Err(_), _) => Ok(times.answered()),
        (told, fewest) => Err(format!("004's procedure {told:?}, fewest {fewest:?}")),
    }
}

/// Runs the cases; the numbers of those that pass and fail.
fn cases(cases: Vec<(String, Case)>) -> (usize, usize) {
    let (mut passed, mut failed) = (0, 0);
    for (name, case) in cases {
        match passes(&case) {
            Ok(columns) => {
                passed += 1;
                println!("pass {name}: {columns} columns agree");
            }
            Err(why) => {
                failed += 1;
                println!("FAIL {name}: {why}");
            }
        }
    }
    (passed, failed)
}

pub fn run() -> ExitCode {
    let all = sets().and_then(|sets| {
        let limited = vec![limited()?];
        Ok([sets, limited, last()?, windows(), degenerate()?, stops()].concat())
    });
    let (passed, failed) = match all {
        Ok(all) => cases(all),
        Err(why) => {
            println!("FAIL {why}");
            (0, 1)
        }
    };
    println!("{passed} passed, {failed} failed");
    if failed == 0 && passed > 0 {
        ExitCode::SUCCESS
    } else {
        ExitCode::FAILURE
    }
}
