// Files of the repository, as the tests compare them.
#![allow(dead_code)]

use std::fs;
use std::path::Path;

/// A file of the repository, as it stands.
pub fn text(path: &str) -> String {
    let path = Path::new(env!("CARGO_MANIFEST_DIR")).join("..").join(path);
    fs::read_to_string(&path).unwrap_or_else(|e| panic!("{}: {e}", path.display()))
}

/// A file of the repository, without its comments and with single spaces.
pub fn file(path: &str) -> String {
    let text = text(path);
    let lines = text
        .lines()
        .map(|line| line.split("//").next().unwrap_or(""));
    let text: String = lines.map(|line| format!("{line} ")).collect();
    let mut kept = String::new();
    let mut rest = text.as_str();
    while let Some(start) = rest.find("/*") {
        kept.push_str(&rest[..start]);
        let end = rest[start..].find("*/").expect("a comment ends");
        rest = &rest[start + end + 2..];
    }
    kept.push_str(rest);
    kept.split_whitespace().collect::<Vec<_>>().join(" ")
}

/// `StopAnswer` as `stop_answer`.
pub fn snake(name: &str) -> String {
    let mut all = String::new();
    for letter in name.chars() {
        if letter.is_uppercase() && !all.is_empty() {
            all.push('_');
        }
        all.extend(letter.to_lowercase());
    }
    all
}
