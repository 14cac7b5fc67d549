// Tables of questions and answers, and the words that the statements write answers in.

use second::Refused;
use std::fmt::Write;

/// How many answers one statement has.
const ROWS: usize = 25;

/// Questions and answers of one kind.
pub struct Table {
    pub name: String,
    pub kind: &'static str,
    pub rows: Vec<(String, String)>,
}

impl Table {
    /// Prints the statements, each of so many answers.
    pub fn print(&self, unfolding: &str, out: &mut String) {
        for (place, rows) in self.rows.chunks(ROWS).enumerate() {
            let (asked, told): (Vec<_>, Vec<_>) = rows.iter().cloned().unzip();
            let name = format!("{}_{place}", self.name);
            let _ = writeln!(out, "\n{name} : ◌≡◌ {{A = List ({})}}", self.kind);
            let _ = writeln!(out, "    ({} ∷ [])", asked.join("\n    ∷ "));
            let _ = writeln!(out, "    ({} ∷ [])", told.join("\n    ∷ "));
            let _ = writeln!(out, "unfolding {unfolding}\n{name} = refl");
        }
    }
}

pub fn list(numbers: &[u64]) -> String {
    let mut text = String::from("(");
    for number in numbers {
        let _ = write!(text, "{number} ∷ ");
    }
    text + "[])"
}

pub fn slice(pair: (u64, u64)) -> String {
    format!("(record {{ specified = {}; bits = {} }})", pair.0, pair.1)
}

pub fn cause(refused: Refused) -> String {
    let name = [
        "Register",
        "Chains",
        "Lengths",
        "TestSlice",
        "StopSlice",
        "AllTaken",
        "NoSeed",
        "NoCutting",
        "NoSpace",
        "SeedBeyond",
        "SeedAtStop",
        "SeedEndless",
        "Line",
        "Total",
    ][refused.number as usize - 1];
    if refused.number < 8 {
        format!("cause.{name}")
    } else {
        format!("(cause.{name} {})", refused.value)
    }
}

pub fn outcome(answer: Result<usize, Refused>, buffer: &[u64]) -> String {
    let answer = match answer {
        Ok(count) => format!("Ok {count}"),
        Err(refused) => format!("Err {}", cause(refused)),
    };
    format!(
        "(record {{ answer = {answer}; buffer = {} }})",
        list(buffer)
    )
}

/// The answer of a call for cubes, and the buffer.
pub fn cubes_outcome(answer: Result<(u64, u64, usize), Refused>, buffer: &[u64]) -> String {
    let answer = match answer {
        Ok((specified, bits, count)) => {
            format!("seeds_with {} {count}", slice((specified, bits)))
        }
        Err(refused) => format!("Err {}", cause(refused)),
    };
    let buffer = list(buffer);
    format!("(record {{ answer = {answer}; buffer = {buffer} }})")
}
