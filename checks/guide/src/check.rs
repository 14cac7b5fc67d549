// Everything that the gate wants of the documents: their examples, the picture, and what they cite.

use crate::examples;
use crate::names;
use crate::picture;
use crate::report::Report;
use std::path::Path;

const MANUAL: &str = "docs/manual.md";

/// Other documents whose console examples are run, where they have any.
const WITH_EXAMPLES: [&str; 2] = ["README.md", "docs/library.md"];

/// Documents whose citations are looked up.
const WITH_NAMES: [&str; 7] = [
    "README.md",
    MANUAL,
    "docs/library.md",
    "docs/proved.md",
    "docs/DECISIONS.md",
    "docs/fuzzing.md",
    "docs/load.md",
];

/// The folder of the notes on requests, whose citations are looked up too.
const REQUESTS: &str = "docs/requests";

/// The picture, and the sheet that it shows.
const PICTURE: &str = "docs/window.svg";
const SHEET: &str = "examples/sheet.txt";

/// Whether the picture of the manual is the one that is drawn.
fn drawn(root: &Path) -> Result<String, String> {
    let kept = std::fs::read_to_string(root.join(PICTURE)).map_err(|why| why.to_string())?;
    if kept == picture::of_file(&root.join(SHEET))? {
        return Ok("as drawn".to_string());
    }
    Err(format!(
        "not as drawn; `guide picture {SHEET} > {PICTURE}` draws it"
    ))
}

/// Whether a document is there and has an example, or can't be read.
fn has_examples(root: &Path, file: &str) -> bool {
    root.join(file).exists() && examples::found(root, file) != Ok(Vec::new())
}

/// The notes on requests, in order.
fn requests(root: &Path) -> Vec<String> {
    let entries = std::fs::read_dir(root.join(REQUESTS)).into_iter().flatten();
    let names = entries.filter_map(|entry| entry.ok()?.file_name().into_string().ok());
    let mut files: Vec<String> = names.map(|name| format!("{REQUESTS}/{name}")).collect();
    files.sort();
    files
}

/// All cases, of the documents that are there. The manual and its picture must be.
pub fn all(root: &Path) -> bool {
    let mut report = Report::new();
    examples::file(&mut report, root, MANUAL);
    for file in WITH_EXAMPLES {
        if has_examples(root, file) {
            examples::file(&mut report, root, file);
        }
    }
    report.case(PICTURE, drawn(root));
    for file in WITH_NAMES {
        if root.join(file).exists() {
            names::file(&mut report, root, file);
        }
    }
    for file in requests(root) {
        names::file(&mut report, root, &file);
    }
    report.end()
}
