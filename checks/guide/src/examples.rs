// The console examples of a document, run in order in one fresh folder and compared byte for byte. Each command is a case.

use crate::blocks::{examples, Example};
use crate::folder::Folder;
use crate::report::Report;
use crate::shell;
use std::ffi::OsString;
use std::path::{Path, PathBuf};

/// Where the two programs are built.
const PROGRAMS: [&str; 2] = ["crates/encode/out", "crates/expand/out"];

/// Where the commands look for programs: first among the two that were built.
fn search_path(root: &Path) -> Result<OsString, String> {
    let programs = PROGRAMS.map(|folder| std::path::absolute(root.join(folder)));
    let programs: Result<Vec<PathBuf>, std::io::Error> = programs.into_iter().collect();
    let programs = programs.map_err(|why| why.to_string())?;
    let rest = std::env::var_os("PATH").unwrap_or_default();
    let all = programs.into_iter().chain(std::env::split_paths(&rest));
    std::env::join_paths(all).map_err(|why| why.to_string())
}

/// One command, run and compared.
fn one(folder: &Folder, path: &OsString, example: &Example) -> Result<String, String> {
    let printed = shell::run(&folder.path, path, &example.command)?;
    if printed == example.printed.as_bytes() {
        return Ok(example
            .command
            .lines()
            .next()
            .unwrap_or_default()
            .to_string());
    }
    Err(format!(
        "{}\n-- the document says\n{}-- it prints\n{}--",
        example.command,
        example.printed,
        String::from_utf8_lossy(&printed)
    ))
}

/// All commands of a document.
fn run(report: &mut Report, root: &Path, file: &str, found: &[Example]) -> Result<(), String> {
    let folder = Folder::like(root)?;
    let path = search_path(root)?;
    for example in found {
        let name = format!("{file}, line {}", example.line);
        report.case(&name, one(&folder, &path, example));
    }
    Ok(())
}

/// The examples that a document has.
pub fn found(root: &Path, file: &str) -> Result<Vec<Example>, String> {
    let document = std::fs::read_to_string(root.join(file)).map_err(|why| why.to_string())?;
    examples(&document)
}

/// The cases of a document, of which there must be one.
pub fn file(report: &mut Report, root: &Path, file: &str) {
    let outcome = found(root, file).and_then(|found| {
        if found.is_empty() {
            return Err("it has no console example".to_string());
        }
        run(report, root, file, &found)
    });
    if let Err(why) = outcome {
        report.case(file, Err(why));
    }
}

#[cfg(test)]
mod tests {
    use super::*;

    /// Passed and failed commands of a document in a folder that has nothing else.
    fn counts(document: &str) -> (usize, usize) {
        let folder = Folder::empty().expect("a folder can be made");
        std::fs::write(folder.path.join("a.md"), document).expect("a file can be written");
        let mut report = Report::new();
        file(&mut report, &folder.path, "a.md");
        report.counts()
    }

    #[test]
    fn right_examples_pass() {
        assert_eq!(
            counts("```console\n$ echo a > b\n$ cat b\na\n```\n"),
            (2, 0)
        );
        assert_eq!(
            counts("```console\n$ echo a >&2; echo b\na\nb\n```\n"),
            (1, 0)
        );
    }

    #[test]
    fn wrong_examples_fail() {
        assert_eq!(
            counts("```console\n$ echo a\nb\n$ echo a\na\n```\n"),
            (1, 1)
        );
        assert_eq!(counts("```console\n$ echo a\n```\n"), (0, 1));
        assert_eq!(counts("```console\n$ printf a\na\n```\n"), (0, 1));
    }

    #[test]
    fn a_document_without_examples_fails() {
        assert_eq!(counts("```\n$ echo a\na\n```\n"), (0, 1));
    }
}
