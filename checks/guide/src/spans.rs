// The code spans of a line of a document, and the text between them.

#[derive(Debug, PartialEq)]
pub enum Span<'a> {
    Text(&'a str),
    /// What stands between backticks.
    Code(&'a str),
}

/// How many backticks a text begins with.
fn ticks(text: &str) -> usize {
    text.len() - text.trim_start_matches('`').len()
}

/// Where a code span ends that `count` backticks have opened: before the next run of as many.
fn closing(text: &str, count: usize) -> Option<usize> {
    let mut from = 0;
    while let Some(place) = text[from..].find('`') {
        let run = ticks(&text[from + place..]);
        if run == count {
            return Some(from + place);
        }
        from += place + run;
    }
    None
}

/// The spans of a line, in order. Backticks that nothing closes are text.
pub fn spans(line: &str) -> Vec<Span<'_>> {
    let mut spans = Vec::new();
    let mut rest = line;
    while let Some(place) = rest.find('`') {
        let count = ticks(&rest[place..]);
        let inside = &rest[place + count..];
        let Some(end) = closing(inside, count) else {
            break;
        };
        if place > 0 {
            spans.push(Span::Text(&rest[..place]));
        }
        spans.push(Span::Code(inside[..end].trim()));
        rest = &inside[end + count..];
    }
    if !rest.is_empty() {
        spans.push(Span::Text(rest));
    }
    spans
}

#[cfg(test)]
mod tests {
    use super::*;
    use Span::{Code, Text};

    #[test]
    fn code_and_text() {
        assert_eq!(spans("a `b` c"), [Text("a "), Code("b"), Text(" c")]);
        assert_eq!(spans("`` a`b ``"), [Code("a`b")]);
        assert_eq!(spans("a `b"), [Text("a `b")]);
    }
}
