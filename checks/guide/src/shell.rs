// One command run by bash in a folder, with what it prints on standard output and standard error, in the order in which it comes.

use std::ffi::OsStr;
use std::io::Read;
use std::path::Path;
use std::process::{Command, Stdio};

/// Seconds after which a command is ended.
const LIMIT: &str = "60";

/// What `timeout` answers where it has ended the command.
const ENDED: i32 = 124;

/// Runs a command; `path` is where it looks for programs. Its own status is not judged: a document shows what is printed.
pub fn run(folder: &Path, path: &OsStr, command: &str) -> Result<Vec<u8>, String> {
    let failed = |why: std::io::Error| why.to_string();
    let (mut output, end) = std::io::pipe().map_err(failed)?;
    // the shell ends with status 0, so that the limit's status can be told from the command's
    let script = format!("{command}\ntrue");
    let mut shell = Command::new("timeout")
        .args(["-k", "5", LIMIT, "bash", "--noprofile", "--norc", "-c"])
        .arg(script)
        .current_dir(folder)
        .env("PATH", path)
        .env("LC_ALL", "C")
        .env_remove("BASH_ENV")
        .stdin(Stdio::null())
        .stdout(end.try_clone().map_err(failed)?)
        .stderr(end)
        .spawn()
        .map_err(|why| format!("timeout and bash do not start: {why}"))?;
    let mut printed = Vec::new();
    output.read_to_end(&mut printed).map_err(failed)?;
    let status = shell.wait().map_err(failed)?;
    match status.code() {
        Some(0) => Ok(printed),
        Some(ENDED) => Err(format!("not ended after {LIMIT} s")),
        _ => Err(format!(
            "the shell ended with {status}, having printed {:?}",
            String::from_utf8_lossy(&printed)
        )),
    }
}
