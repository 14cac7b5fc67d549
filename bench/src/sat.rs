// The seed of a window by the SAT solver: decided first, then made lowest from the highest cell down.
// Variable i + 1 is cell i of the seed. Each position of the stop in each slice has a variable more, tied to the cells by an XOR clause.

use crate::answer::Answer;
use crate::case::Case;
use crate::solver::{solve, used, Found};
use crate::space::rows;
use std::fmt::Write;

/// The clauses of a window as text.
struct Clauses {
    cells: usize,
    variables: usize,
    count: usize,
    text: String,
}

impl Clauses {
    fn clause(&mut self, literals: &[isize]) {
        for literal in literals {
            write!(self.text, "{literal} ").expect("a text takes more");
        }
        self.text.push_str("0\n");
        self.count += 1;
    }

    /// An odd number of the cells in the mask hold 1, counting the variable too where one is given; or an even number.
    fn parity(&mut self, mask: u64, variable: Option<usize>, bit: bool) {
        let cells = (0..self.cells).filter(|cell| mask >> cell & 1 == 1);
        let variables: Vec<usize> = variable
            .into_iter()
            .chain(cells.map(|cell| cell + 1))
            .collect();
        self.text.push_str(if bit { "x" } else { "x-" });
        for variable in variables {
            write!(self.text, "{variable} ").expect("a text takes more");
        }
        self.text.push_str("0\n");
        self.count += 1;
    }

    fn slice(&mut self, row: &[u64], specified: u64, bits: u64) {
        for place in (0..row.len()).filter(|place| specified >> place & 1 == 1) {
            self.parity(row[place], None, bits >> place & 1 == 1);
        }
    }

    /// The slice does not show the stop: at one of its positions the variable differs from the stop's bit.
    fn quiet(&mut self, row: &[u64], stop: (u64, u64)) {
        let mut differ = Vec::new();
        for place in (0..row.len()).filter(|place| stop.0 >> place & 1 == 1) {
            self.variables += 1;
            self.parity(row[place], Some(self.variables), false);
            let variable = self.variables as isize;
            let set = stop.1 >> place & 1 == 1;
            differ.push(if set { -variable } else { variable });
        }
        self.clause(&differ);
    }

    fn of(case: &Case) -> Clauses {
        let length = case.specified.len();
        let table = rows(case, length);
        let mut clauses = Clauses {
            cells: case.cells,
            variables: case.cells,
            count: 0,
            text: String::new(),
        };
        for (t, row) in table[..length].iter().enumerate() {
            clauses.slice(row, case.specified[t], case.bits[t]);
            // a slice that is specified against the stop needs no clause
            if case.specified[t] & case.stop.0 & (case.bits[t] ^ case.stop.1) == 0 {
                clauses.quiet(row, case.stop);
            }
        }
        clauses.slice(&table[length], case.stop.0, case.stop.1);
        clauses
    }

    /// The whole text, with the cells that are fixed.
    fn with(&self, fixed: &[isize]) -> String {
        let count = self.count + fixed.len();
        let mut text = format!("p cnf {} {count}\n{}", self.variables, self.text);
        for literal in fixed {
            writeln!(text, "{literal} 0").expect("a text takes more");
        }
        text
    }

    /// A state that satisfies all, with the cells that are fixed. The outer result is an error, the inner none that the limit was reached.
    fn state(&self, fixed: &[isize], limit: f64) -> Result<Option<Option<u64>>, String> {
        let found = solve(&self.with(fixed), limit - used())?;
        let cell = |state, &variable: &usize| match variable {
            1.. if variable <= self.cells => state | 1 << (variable - 1),
            _ => state,
        };
        Ok(match found {
            Found::Stopped => None,
            Found::Nothing => Some(None),
            Found::Model(model) => Some(Some(model.iter().fold(0, cell))),
        })
    }
}

/// What the solver came to within the limit.
pub struct Outcome {
    /// The time until it was known whether there is a seed.
    pub decided: Option<f64>,
    /// The answer and the time to it.
    pub answer: Option<(Answer, f64)>,
}

pub fn window(case: &Case, limit: f64) -> Result<Outcome, String> {
    let clauses = Clauses::of(case);
    let Some(first) = clauses.state(&[], limit)? else {
        return Ok(Outcome {
            decided: None,
            answer: None,
        });
    };
    let decided = Some(used());
    let seed = match first {
        Some(state) => lowest(&clauses, state, limit)?.map(Some),
        None => Some(None),
    };
    Ok(Outcome {
        decided,
        answer: seed.map(|seed| (Answer::of_window(seed), used())),
    })
}

/// The lowest state, from one that was found: each cell that holds 1 is tried with 0, the cells above it fixed. None if the limit was reached.
fn lowest(clauses: &Clauses, found: u64, limit: f64) -> Result<Option<u64>, String> {
    let (mut state, mut fixed) = (found, Vec::new());
    for cell in (0..clauses.cells).rev() {
        let variable = cell as isize + 1;
        fixed.push(-variable);
        if state >> cell & 1 == 0 {
            continue;
        }
        match clauses.state(&fixed, limit)? {
            None => return Ok(None),
            Some(Some(lower)) => state = lower,
            Some(None) => fixed[clauses.cells - 1 - cell] = variable,
        }
    }
    Ok(Some(state))
}
