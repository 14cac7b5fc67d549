// A program run on a text through pipes: how its input is fed, and how its output is taken.

use std::io::{Read, Write};
use std::os::fd::{AsRawFd, RawFd};
use std::path::Path;
use std::process::{Child, ChildStderr, ChildStdin, ChildStdout, Command, ExitStatus, Stdio};
use std::sync::mpsc;
use std::thread;
use std::time::{Duration, Instant};

/// How a text gets to a program, and its output back.
#[derive(Clone, Copy, Debug, PartialEq)]
pub enum Way {
    Whole,
    /// So many bytes at a time, each time only when all before them are read.
    Pieces(usize),
    /// The output goes through a small pipe and is taken slowly.
    Slow,
    /// The output goes through a small pipe, and the program is stopped and continued while it writes: a write then ends in part.
    Stopped,
}

/// What a program printed, on both outputs, and how it ended.
pub struct Ended {
    pub printed: Vec<u8>,
    pub errors: Vec<u8>,
    pub status: ExitStatus,
}

/// No program takes so long; one that does is ended.
const LIMIT: Duration = Duration::from_secs(120);

extern "C" {
    fn ioctl(file: i32, request: u64, ...) -> i32;
    fn fcntl(file: i32, command: i32, ...) -> i32;
    fn kill(process: i32, signal: i32) -> i32;
}

// the numbers that Linux gives these
const BYTES_TO_READ: u64 = 0x541b;
const SET_PIPE_SIZE: i32 = 1031;
const SMALL_PIPE: i32 = 4096;
const CONTINUE: i32 = 18;
const STOP: i32 = 19;

/// How many bytes a pipe holds.
fn held(pipe: RawFd) -> i32 {
    let mut count = 0;
    match unsafe { ioctl(pipe, BYTES_TO_READ, &mut count) } {
        0 => count,
        _ => 0,
    }
}

/// Waits until it holds, or for a tenth of a second.
fn wait_until(holds: impl Fn() -> bool) {
    let start = Instant::now();
    let mut rounds = 0;
    while !holds() && start.elapsed() < Duration::from_millis(100) {
        rounds += 1;
        if rounds < 200 {
            thread::yield_now();
        } else {
            thread::sleep(Duration::from_micros(20));
        }
    }
}

/// Feeds the input and ends it. A program may leave input unread.
fn feed(mut pipe: ChildStdin, input: &[u8], way: Way) {
    let size = match way {
        Way::Pieces(size) => size,
        _ => input.len().max(1),
    };
    let single = size < input.len();
    for piece in input.chunks(size) {
        if pipe.write_all(piece).is_err() {
            return;
        }
        if single {
            wait_until(|| held(pipe.as_raw_fd()) == 0);
        }
    }
}

/// Stops the program while the pipe is full, and lets it continue.
fn stop_once(pipe: &ChildStdout, process: i32) {
    wait_until(|| held(pipe.as_raw_fd()) >= SMALL_PIPE);
    thread::sleep(Duration::from_micros(300));
    unsafe { kill(process, STOP) };
    thread::sleep(Duration::from_millis(2));
    unsafe { kill(process, CONTINUE) };
    thread::sleep(Duration::from_millis(1));
}

/// Takes the output up to its end.
fn take(mut pipe: ChildStdout, way: Way, process: i32) -> Vec<u8> {
    let mut printed = Vec::new();
    let mut part = [0; 700];
    let slow_rounds = match way {
        Way::Slow => usize::MAX,
        Way::Stopped => 6,
        _ => 0,
    };
    for _ in 0..slow_rounds {
        if way == Way::Stopped {
            stop_once(&pipe, process);
        } else {
            thread::sleep(Duration::from_micros(100));
        }
        match pipe.read(&mut part) {
            Ok(0) | Err(_) => return printed,
            Ok(count) => printed.extend_from_slice(&part[..count]),
        }
    }
    let _ = pipe.read_to_end(&mut printed);
    printed
}

fn errors_of(mut pipe: ChildStderr) -> Vec<u8> {
    let mut errors = Vec::new();
    let _ = pipe.read_to_end(&mut errors);
    errors
}

/// Starts a program over an input.
fn start(path: &Path, input: Stdio) -> Result<Child, String> {
    Command::new(path)
        .stdin(input)
        .stdout(Stdio::piped())
        .stderr(Stdio::piped())
        .spawn()
        .map_err(|why| format!("{} does not start: {why}", path.display()))
}

/// Makes the pipe small, where its output is to wait.
fn fit(pipe: &ChildStdout, way: Way) -> Result<(), String> {
    if matches!(way, Way::Whole | Way::Pieces(_)) {
        return Ok(());
    }
    match unsafe { fcntl(pipe.as_raw_fd(), SET_PIPE_SIZE, SMALL_PIPE) } {
        SMALL_PIPE => Ok(()),
        _ => Err("the pipe can't be made small".into()),
    }
}

/// Feeds one program and takes what the last one prints, which may be the same.
fn pass(last: &mut Child, input: ChildStdin, text: &[u8], way: Way) -> Result<Ended, String> {
    let process = last.id() as i32;
    let output = last.stdout.take().ok_or("no standard output")?;
    let errors = last.stderr.take().ok_or("no standard error")?;
    fit(&output, way)?;
    let (sender, done) = mpsc::channel();
    let other = sender.clone();
    let (in_time, errors, printed) = thread::scope(|scope| {
        let fed = scope.spawn(move || {
            feed(input, text, way);
            let errors = errors_of(errors);
            let _ = sender.send(());
            errors
        });
        let taken = scope.spawn(move || {
            let printed = take(output, way, process);
            let _ = other.send(());
            printed
        });
        let in_time = (0..2).all(|_| done.recv_timeout(LIMIT).is_ok());
        if !in_time {
            let _ = last.kill();
        }
        (in_time, fed.join(), taken.join())
    });
    let status = last.wait().map_err(|why| why.to_string())?;
    match (in_time, errors, printed) {
        (true, Ok(errors), Ok(printed)) => Ok(Ended {
            printed,
            errors,
            status,
        }),
        (false, ..) => Err(format!("not ended after {} s", LIMIT.as_secs())),
        _ => Err("feeding the program failed".into()),
    }
}

/// Runs a program on a text.
pub fn run(path: &Path, text: &[u8], way: Way) -> Result<Ended, String> {
    let mut child = start(path, Stdio::piped())?;
    let input = child.stdin.take().ok_or("no standard input")?;
    pass(&mut child, input, text, way)
}

/// Runs a program on a text, and another on what it prints.
pub fn run_both(first: &Path, second: &Path, text: &[u8], way: Way) -> Result<Ended, String> {
    let mut one = start(first, Stdio::piped())?;
    let input = one.stdin.take().ok_or("no standard input")?;
    let between = one.stdout.take().ok_or("no standard output")?;
    let mut other = start(second, between.into())?;
    let ended = pass(&mut other, input, text, way);
    if ended.is_err() {
        let _ = one.kill();
    }
    // its own end is judged where it runs alone: here the other may have stopped reading
    one.wait().map_err(|why| why.to_string())?;
    ended
}
