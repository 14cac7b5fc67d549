// The relative links of a document: the file must be there, and the heading that is named behind `#`.

use crate::blocks::{parts, Part};
use crate::spans::Span;
use std::path::Path;

/// The targets of the links in a span of text.
pub fn targets<'a>(span: &Span<'a>) -> Vec<&'a str> {
    let Span::Text(text) = *span else {
        return Vec::new();
    };
    let starts = text.split("](").skip(1);
    let targets = starts.filter_map(|start| start.split([')', ' ']).next());
    targets
        .filter(|target| !target.contains("://") && !target.starts_with("mailto:"))
        .collect()
}

/// The name by which a link leads to a heading: lower case, `-` for each space, letters, digits, `-` and `_`.
fn anchor(heading: &str) -> String {
    let kept = |c: &char| c.is_alphanumeric() || " -_".contains(*c);
    let kept: String = heading.trim().chars().filter(kept).collect();
    kept.to_lowercase().replace(' ', "-")
}

/// Whether a document has a heading of that name.
fn has_heading(document: &str, name: &str) -> bool {
    parts(document).any(|part| match part {
        Part::Outside(line) if line.starts_with('#') => {
            anchor(line.trim_start_matches('#')) == name
        }
        _ => false,
    })
}

/// Whether a target leads anywhere from a document.
pub fn leads(document: &Path, target: &str) -> Result<(), String> {
    let (path, heading) = match target.split_once('#') {
        Some((path, heading)) => (path, Some(heading)),
        None => (target, None),
    };
    let file = match path {
        "" => document.to_path_buf(),
        _ => document.parent().unwrap_or(Path::new("")).join(path),
    };
    if !file.exists() {
        return Err(format!("the link {target} leads to no file"));
    }
    let Some(heading) = heading else {
        return Ok(());
    };
    let text = std::fs::read_to_string(&file).map_err(|why| format!("{target}: {why}"))?;
    if has_heading(&text, heading) {
        return Ok(());
    }
    Err(format!("the link {target} leads to no heading"))
}

#[cfg(test)]
mod tests {
    use super::*;

    #[test]
    fn headings() {
        assert!(has_heading(
            "# a\n## Many sheets, at once\n",
            "many-sheets-at-once"
        ));
        assert!(!has_heading("```\n# a\n```\n", "a"));
    }
}
