// A program that was started over files and pipes of the test: every wait for it has a limit, and one that is left is ended.

use crate::report::same;
use crate::text::shown;
use std::ffi::OsStr;
use std::fs;
use std::io::{PipeReader, PipeWriter, Read, Write};
use std::os::unix::process::ExitStatusExt;
use std::process::{Child, Command, ExitStatus, Stdio};
use std::sync::mpsc;
use std::thread;
use std::time::{Duration, Instant};

/// No wait is longer.
const LIMIT: Duration = Duration::from_secs(20);

/// How long to wait before looking again.
const PAUSE: Duration = Duration::from_millis(1);

/// More bytes than anything prints.
const MOST: u64 = 10_000_000;

const SHELL: &str = "bash";

/// Bytes that a pipe of Linux holds.
const PIPE: usize = 65_536;

/// What a piece of work gives, if it ends in time. Work that does not end is left alone.
pub fn in_time<T: Send + 'static>(work: impl FnOnce() -> T + Send + 'static) -> Result<T, String> {
    let (sender, done) = mpsc::channel();
    thread::spawn(move || sender.send(work()));
    done.recv_timeout(LIMIT)
        .map_err(|_| format!("not done after {} s", LIMIT.as_secs()))
}

/// All that comes from a pipe up to its end, or the first bytes of too many.
pub fn all_of(pipe: impl Read + Send + 'static) -> Result<Vec<u8>, String> {
    let mut bytes = Vec::new();
    let work = move || pipe.take(MOST).read_to_end(&mut bytes).map(|_| bytes);
    in_time(work)?.map_err(|why| why.to_string())
}

/// Looks again and again until something is there.
fn look<T>(mut there: impl FnMut() -> Result<Option<T>, String>) -> Result<T, String> {
    let start = Instant::now();
    while start.elapsed() < LIMIT {
        if let Some(found) = there()? {
            return Ok(found);
        }
        thread::sleep(PAUSE);
    }
    Err(format!("not ended after {} s", LIMIT.as_secs()))
}

/// A pipe that holds so many bytes less than it can.
pub fn pipe_with_room(room: usize) -> Result<(PipeReader, PipeWriter), String> {
    let (reader, mut writer) = std::io::pipe().map_err(|why| why.to_string())?;
    let filled = move || writer.write_all(&vec![b'-'; PIPE - room]).map(|()| writer);
    match in_time(filled)? {
        Ok(writer) => Ok((reader, writer)),
        Err(why) => Err(why.to_string()),
    }
}

/// How a program ended, and after how many seconds.
pub struct Ended {
    status: ExitStatus,
    seconds: f64,
}

impl Ended {
    /// Its status or signal.
    fn way(&self) -> String {
        match (self.status.code(), self.status.signal()) {
            (Some(code), _) => format!("status {code}"),
            (None, Some(number)) => format!("signal {number}"),
            (None, None) => self.status.to_string(),
        }
    }

    /// Fails unless it ended by itself with status 0.
    pub fn by_itself(&self) -> Result<(), String> {
        same("the end", self.way(), "status 0".into())
    }

    /// Fails unless it was ended by this signal.
    pub fn by_signal(&self, number: i32) -> Result<(), String> {
        same("the end", self.way(), format!("signal {number}"))
    }

    pub fn shown(&self) -> String {
        format!("{} after {:.2} s", self.way(), self.seconds)
    }
}

/// A process that was started.
pub struct Running {
    child: Child,
    start: Instant,
}

impl Running {
    /// Starts a command over an input and an output.
    pub fn start(
        program: impl AsRef<OsStr>,
        words: &[&OsStr],
        input: Stdio,
        output: Stdio,
    ) -> Result<Running, String> {
        let child = Command::new(&program)
            .args(words)
            .stdin(input)
            .stdout(output)
            .stderr(Stdio::piped())
            .spawn()
            .map_err(|why| format!("{:?} does not start: {why}", program.as_ref()))?;
        Ok(Running {
            child,
            start: Instant::now(),
        })
    }

    /// Starts what a line of the shell says; its words are `$0`, `$1` and so on.
    pub fn shell(line: &str, words: &[&OsStr], output: Stdio) -> Result<Running, String> {
        let words = [&[OsStr::new("-c"), OsStr::new(line)], words].concat();
        Running::start(SHELL, &words, Stdio::null(), output)
    }

    /// Waits for the end. Nothing is printed on standard error.
    pub fn wait(&mut self) -> Result<Ended, String> {
        let child = &mut self.child;
        let status = look(|| child.try_wait().map_err(|why| why.to_string()))?;
        let seconds = self.start.elapsed().as_secs_f64();
        let errors = self.child.stderr.take().ok_or("no standard error")?;
        let errors = all_of(errors)?;
        same("standard error", shown(&errors), shown(b""))?;
        Ok(Ended { status, seconds })
    }

    /// A line of what Linux says about the process.
    fn told(&self, key: &str) -> Result<String, String> {
        let path = format!("/proc/{}/status", self.child.id());
        let text = fs::read_to_string(&path).map_err(|why| format!("{path}: {why}"))?;
        let line = text.lines().find_map(|line| line.strip_prefix(key));
        line.map(|value| value.trim().to_string())
            .ok_or(format!("{path} has no {key}"))
    }

    /// Waits until the program sleeps, and not the shell that starts it. Its input is a file, so it waits for its output.
    pub fn sleeps(&self) -> Result<(), String> {
        look(|| {
            let asleep = self.told("State:")?.starts_with('S') && self.told("Name:")? != SHELL;
            Ok(asleep.then_some(()))
        })
    }

    /// The most memory that was resident so far.
    pub fn most_resident(&self) -> Result<String, String> {
        self.told("VmHWM:")
    }
}

impl Drop for Running {
    fn drop(&mut self) {
        let _ = self.child.kill();
        let _ = self.child.wait();
    }
}
