// The columns of the tables: what is measured beside the library.

use crate::answer::Answer;
use crate::case::{Ask, Case, NONE_INVERTED};
use crate::{enumeration, fast, library, marked, solver};

#[derive(Clone, Copy, Debug, PartialEq)]
pub enum Column {
    /// The proved library.
    Ours,
    /// The same algorithm in Rust, without proofs: every acceleration, each window searched once.
    Fast,
    /// The stop slice by the same rule in Rust, without proofs: the slices still in are kept in a list.
    Marked,
    /// The second program.
    Second,
    /// Plain enumeration.
    Enumeration,
    /// The SAT solver.
    Sat,
    /// The library of an earlier commit, through another benchmark program.
    First,
}

const ALL: [Column; 7] = [
    Column::Ours,
    Column::Fast,
    Column::Marked,
    Column::Second,
    Column::Enumeration,
    Column::Sat,
    Column::First,
];

/// The variable that names the benchmark program of an earlier commit.
const FIRST: &str = "FIRST_VERSION";

/// The benchmark program of an earlier commit, where one is named.
pub fn first_program() -> Option<std::ffi::OsString> {
    std::env::var_os(FIRST)
}

impl Column {
    /// The columns that can be measured here, for what is asked.
    pub fn here(ask: Ask) -> Vec<Column> {
        let measured = |column: &Column| match (column, ask) {
            (Column::Ours | Column::Second, _) => true,
            (Column::Marked, _) => ask == Ask::Stop,
            (_, Ask::Stop) => false,
            (Column::Sat, _) => ask == Ask::Window && solver::found(),
            (Column::First, _) => first_program().is_some(),
            (Column::Fast | Column::Enumeration, _) => true,
        };
        ALL.into_iter().filter(measured).collect()
    }

    /// Its name in tables, plots and the arguments of a measurement.
    pub fn name(self) -> &'static str {
        match self {
            Column::Ours => "ours",
            Column::Fast => "fast",
            Column::Marked => "marked",
            Column::Second => "second",
            Column::Enumeration => "enumeration",
            Column::Sat => "SAT",
            Column::First => "first version",
        }
    }

    pub fn named(name: &str) -> Option<Column> {
        ALL.into_iter().find(|column| column.name() == name)
    }

    /// The answer of a column that runs in the measuring process; none for the others, or where it has no answer to what is asked.
    pub fn answer(self, case: &Case) -> Option<Answer> {
        match (self, case.ask) {
            (Column::Ours, Ask::Window) => Some(library::window(case)),
            (Column::Ours, Ask::Set) => Some(library::set(case)),
            (Column::Ours, Ask::Stop) => Some(library::stop(case)),
            (Column::Fast, Ask::Window) => Some(Answer::of_window(fast_window(case))),
            (Column::Fast, Ask::Set) => Some(Answer::of_set(fast_set(case))),
            (Column::Marked, Ask::Stop) => Some(Answer::of_stop(marked_stop(case))),
            (Column::Second, Ask::Window) => Some(second_window(case)),
            (Column::Second, Ask::Set) => Some(second_set(case)),
            (Column::Second, Ask::Stop) => Some(second_stop(case)),
            (Column::Enumeration, Ask::Window) => {
                Some(Answer::of_window(enumeration::window(case)))
            }
            (Column::Enumeration, Ask::Set) => Some(Answer::of_set(enumeration::set(case))),
            (Column::Fast | Column::Enumeration, Ask::Stop) | (Column::Marked, _) => None,
            (Column::Sat | Column::First, _) => None,
        }
    }
}

fn fast_window(case: &Case) -> Option<u64> {
    fast::window(
        case.cells,
        case.taps,
        &case.masks,
        case.stop,
        &case.specified,
        &case.bits,
    )
}

fn fast_set(case: &Case) -> Result<Vec<u64>, usize> {
    fast::encode(
        case.cells,
        case.taps,
        case.window_limit,
        &case.masks,
        case.stop,
        &case.specified,
        &case.bits,
    )
}

fn marked_stop(case: &Case) -> Option<(u64, u64)> {
    marked::stop(case.masks.len(), &case.specified, &case.bits)
}

fn second_window(case: &Case) -> Answer {
    let told = second::window_seed(
        case.cells as u64,
        case.taps,
        case.window_limit as u64,
        NONE_INVERTED,
        &case.masks,
        case.stop.0,
        case.stop.1,
        &case.specified,
        &case.bits,
    );
    match told {
        Ok(seed) => Answer::Seeds(vec![seed]),
        Err(refused) => Answer::Refused(refused.number as usize, refused.value as usize),
    }
}

fn second_set(case: &Case) -> Answer {
    let mut out = vec![0; case.specified.len()];
    let told = second::encode_set(
        case.cells as u64,
        case.taps,
        case.window_limit as u64,
        NONE_INVERTED,
        &case.masks,
        case.stop.0,
        case.stop.1,
        &case.specified,
        &case.bits,
        &mut out,
    );
    match told {
        Ok(count) => Answer::Seeds(out[..count].to_vec()),
        Err(refused) => Answer::Refused(refused.number as usize, refused.value as usize),
    }
}

fn second_stop(case: &Case) -> Answer {
    let told = second::stop_slice(case.masks.len() as u64, &case.specified, &case.bits);
    match told {
        Ok((specified, bits)) => Answer::Stop(specified, bits),
        Err(refused) => Answer::Refused(refused.number as usize, refused.value as usize),
    }
}
