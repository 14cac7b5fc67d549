// One run of the SAT solver cryptominisat5 over a text with XOR clauses, and the CPU time of all its runs.

use std::io::{Read, Write};
use std::process::{Child, Command, Stdio};
use std::time::Duration;

/// The solver's program, looked for on the PATH.
const PROGRAM: &str = "cryptominisat5";

/// Times and counts of a process, as Linux gives them.
#[repr(C)]
struct Usage {
    user: [i64; 2],
    system: [i64; 2],
    others: [i64; 14],
}

extern "C" {
    fn getrusage(who: i32, usage: *mut Usage) -> i32;
}

// the number that Linux gives to the children that have ended
const CHILDREN: i32 = -1;

/// The CPU time of all solver runs that have ended, in seconds.
pub fn used() -> f64 {
    let mut usage = Usage {
        user: [0; 2],
        system: [0; 2],
        others: [0; 14],
    };
    let status = unsafe { getrusage(CHILDREN, &mut usage) };
    assert_eq!(status, 0, "the times of ended processes can be read");
    let seconds = |time: [i64; 2]| time[0] as f64 + time[1] as f64 * 1e-6;
    seconds(usage.user) + seconds(usage.system)
}

/// Whether the solver is on the PATH.
pub fn found() -> bool {
    let paths = std::env::var_os("PATH").unwrap_or_default();
    let mut folders = std::env::split_paths(&paths);
    folders.any(|folder| folder.join(PROGRAM).is_file())
}

/// The CPU time of a running process, in seconds: the fields 14 and 15 of its line in /proc, in hundredths.
fn used_so_far(child: &Child) -> f64 {
    let line = std::fs::read_to_string(format!("/proc/{}/stat", child.id())).unwrap_or_default();
    let behind = line.rsplit(')').next().unwrap_or_default();
    let fields = behind.split_whitespace().skip(11).take(2);
    fields.flat_map(str::parse::<f64>).sum::<f64>() / 100.0
}

/// What the solver prints.
#[derive(Debug, PartialEq)]
pub enum Found {
    /// The variables that are true.
    Model(Vec<usize>),
    Nothing,
    /// The limit was reached.
    Stopped,
}

/// Waits for the solver; false if it was stopped.
fn ended(child: &mut Child, limit: f64) -> Result<bool, String> {
    loop {
        if child.try_wait().map_err(|e| e.to_string())?.is_some() {
            return Ok(true);
        }
        if used_so_far(child) > limit {
            child.kill().map_err(|e| e.to_string())?;
            child.wait().map_err(|e| e.to_string())?;
            return Ok(false);
        }
        std::thread::sleep(Duration::from_millis(2));
    }
}

/// Solves a text of clauses, within so many seconds of CPU time. The solver's own limit is a little later: it counts where nobody waits for it any more.
pub fn solve(text: &str, limit: f64) -> Result<Found, String> {
    let mut child = Command::new(PROGRAM)
        .args(["--verb", "0", "--maxtime"])
        .arg((limit.ceil() + 1.0).to_string())
        .stdin(Stdio::piped())
        .stdout(Stdio::piped())
        .spawn()
        .map_err(|e| format!("the solver does not start: {e}"))?;
    let mut pipe = child.stdin.take().ok_or("no standard input")?;
    pipe.write_all(text.as_bytes()).map_err(|e| e.to_string())?;
    drop(pipe);
    if !ended(&mut child, limit)? {
        return Ok(Found::Stopped);
    }
    let mut told = String::new();
    let mut output = child.stdout.take().ok_or("no standard output")?;
    output
        .read_to_string(&mut told)
        .map_err(|e| e.to_string())?;
    read(&told).ok_or(format!("the solver prints: {told}"))
}

fn read(told: &str) -> Option<Found> {
    let mut lines = told.lines().filter(|line| !line.starts_with('c'));
    match lines.next()? {
        "s UNSATISFIABLE" => Some(Found::Nothing),
        "s SATISFIABLE" => {
            let words = lines.flat_map(|line| line.split_whitespace().skip(1));
            Some(Found::Model(words.flat_map(str::parse).collect()))
        }
        _ => None,
    }
}
