// The guide program: it tries what the documents say.
//     guide all ROOT              everything that the gate wants of the repository in the folder ROOT
//     guide examples FILE.md..    the console examples of documents, run and compared
//     guide names FILE.md..       the paths, links and names that documents cite, looked up
//     guide picture SHEET         the picture of a small sheet, to standard output
//     guide sheets FOLDER COUNT   sheets for the manual's example of many sheets
// `examples` and `names` are run in the repository's root folder. They and `all` end with the line `N passed, M failed`.

mod blocks;
mod captions;
mod check;
mod drawing;
mod examples;
mod folder;
mod glob;
mod layout;
mod links;
mod names;
mod picture;
mod random;
mod report;
mod sheets;
mod shell;
mod spans;
mod text;
mod windows;
mod words;

use report::Report;
use std::io::Write;
use std::path::Path;
use std::process::ExitCode;

fn ended(well: bool) -> ExitCode {
    if well {
        ExitCode::SUCCESS
    } else {
        ExitCode::FAILURE
    }
}

/// Tries each file, in the repository whose root is the current folder.
fn each(files: &[&str], attempt: fn(&mut Report, &Path, &str)) -> ExitCode {
    let mut report = Report::new();
    for file in files {
        attempt(&mut report, Path::new("."), file);
    }
    ended(report.end())
}

/// A command that answers with what to print, or with why it can't.
fn answered(answer: Result<String, String>) -> ExitCode {
    let written = answer.and_then(|text| {
        let written = std::io::stdout().write_all(text.as_bytes());
        written.map_err(|why| why.to_string())
    });
    if let Err(why) = &written {
        eprintln!("{why}");
    }
    ended(written.is_ok())
}

fn main() -> ExitCode {
    let words: Vec<String> = std::env::args().skip(1).collect();
    let words: Vec<&str> = words.iter().map(String::as_str).collect();
    match words[..] {
        ["all", root] => ended(check::all(Path::new(root))),
        ["examples", ref files @ ..] => each(files, examples::file),
        ["names", ref files @ ..] => each(files, names::file),
        ["picture", sheet] => answered(picture::of_file(Path::new(sheet))),
        ["sheets", folder, count] => answered(sheets::write(Path::new(folder), count)),
        _ => answered(Err("guide all ROOT | examples FILE.md.. | names FILE.md.. | picture SHEET | sheets FOLDER COUNT".to_string())),
    }
}
