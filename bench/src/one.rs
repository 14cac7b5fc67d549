// One measurement, a process of its own: `bench one COLUMN LIMIT LEAST` reads a case from standard input and prints the CPU time of one call, then the answer.
// It ends itself once it has used LIMIT seconds. After a first call that is not counted, calls are repeated until LEAST seconds have passed.

use crate::answer::Answer;
use crate::case::Case;
use crate::clock;
use crate::columns::Column;
use crate::sat;
use std::io::Read;
use std::process::ExitCode;
use std::time::Duration;

/// The exit status of a measurement that ended itself.
pub const STOPPED: u8 = 3;

/// Ends the process once it has used so many seconds.
fn watch(limit: f64) {
    std::thread::spawn(move || loop {
        std::thread::sleep(Duration::from_millis(10));
        if clock::process() > limit {
            std::process::exit(STOPPED.into());
        }
    });
}

/// The time of one call, and its answer. A first call that takes `least` or more is the one that counts.
fn repeat(column: Column, case: &Case, least: f64) -> Option<(f64, Answer)> {
    let begin = clock::thread();
    let answer = column.answer(case)?;
    let start = clock::thread();
    if start - begin >= least {
        return Some((start - begin, answer));
    }
    let mut runs = 0.0;
    loop {
        let again = column.answer(case)?;
        runs += 1.0;
        let time = clock::thread() - start;
        if time >= least {
            return (again == answer).then_some((time / runs, answer));
        }
    }
}

/// The solver's answer. Where it was stopped after it knew whether there is a seed, the time until then is printed alone.
fn by_solver(case: &Case, limit: f64) -> ExitCode {
    let outcome = match sat::window(case, limit) {
        Ok(outcome) => outcome,
        Err(why) => {
            println!("{why}");
            return ExitCode::FAILURE;
        }
    };
    if let Some((answer, time)) = &outcome.answer {
        println!("{time}\n{answer}");
    }
    if let Some(decided) = outcome.decided {
        println!("{decided}");
    }
    match outcome.answer {
        Some(_) => ExitCode::SUCCESS,
        None => STOPPED.into(),
    }
}

pub fn run(column: &str, limit: &str, least: &str) -> ExitCode {
    let mut text = String::new();
    let read = std::io::stdin().read_to_string(&mut text).is_ok();
    let (Some(column), Ok(limit), Ok(least), Some(case), true) = (
        Column::named(column),
        limit.parse(),
        least.parse(),
        Case::read(&text),
        read,
    ) else {
        println!("a measurement is not asked for in its form");
        return ExitCode::FAILURE;
    };
    if column == Column::Sat {
        return by_solver(&case, limit);
    }
    watch(limit);
    let Some((time, answer)) = repeat(column, &case, least) else {
        println!("a call gives another answer when it is repeated");
        return ExitCode::FAILURE;
    };
    println!("{time}\n{answer}");
    ExitCode::SUCCESS
}
