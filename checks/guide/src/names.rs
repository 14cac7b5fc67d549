// What a document cites: paths in backticks, relative links, and names that it says stand in a file ("`a`, `b` and `c` in `path`").
// Paths are those of the repository that begin with one of its folders, but for what is made in a folder `out`. Fenced blocks are left out.

use crate::blocks::{parts, Part};
use crate::glob;
use crate::links;
use crate::report::Report;
use crate::spans::{spans, Span};
use crate::words;
use std::path::Path;

/// What a cited path begins with.
const FOLDERS: [&str; 8] = [
    "crates/",
    "c/",
    "rust/",
    "bench/",
    "checks/",
    "examples/",
    "docs/",
    ".ci/",
];

/// The folders of a crate in which its program or library is made.
const MADE: &str = "out";

fn is_path(code: &str) -> bool {
    let begins = FOLDERS.iter().any(|folder| code.starts_with(folder));
    begins && !code.contains(' ') && code.split('/').all(|part| part != MADE)
}

/// What is cited and can't be found, and how much was looked up.
struct Citations {
    looked_up: usize,
    wrong: Vec<String>,
}

impl Citations {
    fn look(&mut self, outcome: Result<(), String>) {
        self.looked_up += 1;
        self.wrong.extend(outcome.err());
    }
}

/// The names before "in": the last one, and those that commas and "and" join to it.
fn names_before<'a>(spans: &[Span<'a>]) -> Vec<&'a str> {
    let mut names = Vec::new();
    let mut rest = spans;
    while let [front @ .., Span::Code(name), Span::Text(joint)] = rest {
        let joins = match names.is_empty() {
            true => *joint == " in ",
            false => [", ", " and ", ", and ", " or ", ", or "].contains(joint),
        };
        if !joins || is_path(name) {
            break;
        }
        names.push(*name);
        rest = front;
    }
    names
}

/// Whether a name stands in what a path names. Of `window::window_seed` the last part is looked up, and `()` is left off.
fn stands(root: &Path, name: &str, path: &str) -> Result<(), String> {
    let last = name.rsplit("::").next().unwrap_or(name);
    let last = last.strip_suffix("()").unwrap_or(last);
    let files = glob::found(root, path);
    if !last.is_empty() && files.iter().any(|file| words::stands_in(file, last)) {
        return Ok(());
    }
    Err(format!("{name} does not stand in {path}"))
}

/// The citations of one line of a document.
fn line(found: &mut Citations, root: &Path, document: &Path, text: &str) {
    let spans = spans(text);
    for (place, span) in spans.iter().enumerate() {
        for target in links::targets(span) {
            found.look(links::leads(document, target));
        }
        let Span::Code(path) = *span else {
            continue;
        };
        if !is_path(path) {
            continue;
        }
        let there = !glob::found(root, path).is_empty();
        found.look(there.then_some(()).ok_or(format!("{path} is not there")));
        for name in names_before(&spans[..place]) {
            found.look(stands(root, name, path));
        }
    }
}

/// How many citations a document has, or those that are wrong.
fn citations(root: &Path, file: &str) -> Result<String, String> {
    let document = root.join(file);
    let text = std::fs::read_to_string(&document).map_err(|why| why.to_string())?;
    let mut found = Citations {
        looked_up: 0,
        wrong: Vec::new(),
    };
    for part in parts(&text) {
        if let Part::Outside(text) = part {
            line(&mut found, root, &document, text);
        }
    }
    match (found.looked_up, found.wrong.is_empty()) {
        (0, _) => Err("it cites nothing".to_string()),
        (count, true) => Ok(format!("{count} citations")),
        (_, false) => Err(found.wrong.join("\n")),
    }
}

/// The case of a document.
pub fn file(report: &mut Report, root: &Path, file: &str) {
    report.case(&format!("{file}, citations"), citations(root, file));
}

#[cfg(test)]
mod tests {
    use super::*;
    use crate::folder::Folder;
    use std::fs;

    /// The citations of a document beside the file c/a.h, which has the words one-two and three.
    fn cited(document: &str) -> Result<String, String> {
        let folder = Folder::empty()?;
        let write = |name: &str, text: &str| fs::write(folder.path.join(name), text);
        fs::create_dir(folder.path.join("c")).expect("a folder can be made");
        write("c/a.h", "one-two, three").expect("a file can be written");
        write("a.md", document).expect("a file can be written");
        citations(&folder.path, "a.md")
    }

    #[test]
    fn right_citations_pass() {
        for right in [
            "`c/` `c/a.h` `c/*.h` `c/` `other/a.h` `c/out/b.h` `c/out`",
            "`one-two` and `b::three` in `c/a.h`, `four`",
            "`four` and, besides, `three` in `c/`",
            "[a](c/a.h) [b](a.md) [c](https://four) `c/a.h`",
            "# Head\n[a](#head)\n```\n`c/four`\n```\n",
        ] {
            assert!(cited(right).is_ok(), "{right}");
        }
    }

    #[test]
    fn missing_files_are_found() {
        for wrong in [
            "`c/b.h`",
            "`c/a.h/`",
            "`c/*.c`",
            "`c/outer/b.h`",
            "[a](b.md)",
            "[a](#head)",
        ] {
            assert!(cited(wrong).is_err(), "{wrong}");
        }
    }

    #[test]
    fn missing_names_are_found() {
        for wrong in [
            "`four` in `c/a.h`",
            "`one` in `c/a.h`",
            "`four`, `one-two` and `three` in `c/a.h`",
            "`three` in `c/b.h`",
        ] {
            assert!(cited(wrong).is_err(), "{wrong}");
        }
    }
}
