// One row of a table: a case measured in every column, by turns, and the answers compared; or several cases by turns.

use crate::answer::Answer;
use crate::case::{Ask, Case};
use crate::columns::Column;
use crate::measure::{measure, Limits, Time};

/// A call that takes less, in seconds, is measured in all rounds.
pub const SHORT: f64 = 1.0;

/// How a case is measured: the columns, the limits and the number of rounds.
#[derive(Clone)]
pub struct Plan {
    pub columns: Vec<Column>,
    pub limits: Limits,
    pub rounds: usize,
}

/// The times of a row; short ones are the least of all rounds.
#[derive(Clone)]
pub struct Times {
    times: Vec<(Column, Time)>,
    /// The SAT solver's time until it was known whether there is a seed.
    pub decided: Option<f64>,
}

impl Times {
    fn new(plan: &Plan, left: &[Column]) -> Times {
        let first = |&column: &Column| match left.contains(&column) {
            true => (column, Time::Left),
            false => (column, Time::Took(f64::INFINITY)),
        };
        Times {
            times: plan.columns.iter().map(first).collect(),
            decided: None,
        }
    }

    pub fn of(&self, column: Column) -> Time {
        let found = self.times.iter().find(|(other, _)| *other == column);
        found.map_or(Time::Left, |(_, time)| *time)
    }

    pub fn seconds(&self, column: Column) -> Option<f64> {
        self.of(column).seconds()
    }

    /// Whether a column is due in a round: the first, or a later one where it was short.
    fn due(&self, column: Column, round: usize) -> bool {
        match self.of(column) {
            Time::Took(seconds) => round == 0 || seconds < SHORT,
            _ => false,
        }
    }

    fn note(&mut self, column: Column, time: Time) {
        for (other, known) in &mut self.times {
            if *other != column {
                continue;
            }
            *known = match (*known, time) {
                (Time::Took(least), Time::Took(seconds)) => Time::Took(least.min(seconds)),
                (Time::Took(least), _) if least.is_finite() => Time::Took(least),
                _ => time,
            };
        }
    }

    /// Keeps the least time until the solver knew.
    fn decide(&mut self, decided: Option<f64>) {
        let both = self.decided.into_iter().chain(decided);
        self.decided = both.reduce(f64::min);
    }

    /// The columns that were stopped.
    pub fn stopped(&self) -> impl Iterator<Item = Column> + '_ {
        let stopped = |(_, time): &&(Column, Time)| matches!(time, Time::Stopped(_));
        self.times.iter().filter(stopped).map(|(column, _)| *column)
    }

    /// How many columns gave an answer.
    pub fn answered(&self) -> usize {
        let took = |(_, time): &&(Column, Time)| matches!(time, Time::Took(_));
        self.times.iter().filter(took).count()
    }
}

/// The answer that the columns must share. The library of an earlier commit may close the window that ends a set: its list of a set need only go on as theirs up to the last seed, and it is not theirs.
struct Shared {
    ask: Ask,
    answer: Option<(Column, Answer)>,
}

impl Shared {
    fn compare(&mut self, column: Column, answer: Answer) -> Result<(), String> {
        let closes = column == Column::First && self.ask == Ask::Set;
        let Some((other, known)) = &self.answer else {
            self.answer = (!closes).then_some((column, answer));
            return Ok(());
        };
        let agree = match closes {
            true => known.agrees_before_last(&answer),
            false => *known == answer,
        };
        match agree {
            true => Ok(()),
            false => Err(format!(
                "the answers differ: {} has {known}, {} has {answer}",
                other.name(),
                column.name()
            )),
        }
    }
}

/// A case in the course of its measurement.
struct Turns {
    text: String,
    times: Times,
    shared: Shared,
}

impl Turns {
    /// One round: the columns that are due, one after another.
    fn round(&mut self, plan: &Plan, round: usize) -> Result<(), String> {
        for &column in &plan.columns {
            if !self.times.due(column, round) {
                continue;
            }
            let measured = measure(column, &self.text, plan.limits)?;
            self.times.note(column, measured.time);
            if let Some(answer) = measured.answer {
                self.shared.compare(column, answer)?;
            }
            self.times.decide(measured.decided);
        }
        Ok(())
    }
}

/// What is known of a case after its measurement: the times, and the answer that the columns share.
pub type Row = (Times, Option<Answer>);

/// Measures a case, without the columns that are left out. A difference of answers is an error.
pub fn row(case: &Case, plan: &Plan, left: &[Column]) -> Result<Row, String> {
    let [row] = rows([case], plan, left)?;
    Ok(row)
}

/// Measures cases by turns: each round takes all of them.
pub fn rows<const N: usize>(
    cases: [&Case; N],
    plan: &Plan,
    left: &[Column],
) -> Result<[Row; N], String> {
    let mut all = cases.map(|case| Turns {
        text: case.text(),
        times: Times::new(plan, left),
        shared: Shared {
            ask: case.ask,
            answer: None,
        },
    });
    for round in 0..plan.rounds {
        for turns in &mut all {
            turns.round(plan, round)?;
        }
    }
    Ok(all.map(|turns| {
        let answer = turns.shared.answer.map(|(_, answer)| answer);
        (turns.times, answer)
    }))
}
