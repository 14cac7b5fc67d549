// The fenced blocks of a document, and the examples in those that are marked `console`.
// In such a block a line that begins with `$ ` is a command; it goes on over the lines straight after it that begin with `> `.
// The lines up to the next command or the end of the block are what it prints.

/// A command of a document, and what it says is printed.
#[derive(Debug, PartialEq)]
pub struct Example {
    /// The line of the document, from 1.
    pub line: usize,
    pub command: String,
    pub printed: String,
}

/// A line of a document by its place: a fence with its info string, inside a block, or outside.
pub enum Part<'a> {
    Opens(&'a str),
    Inside(&'a str),
    Closes,
    Outside(&'a str),
}

const FENCE: &str = "```";

/// The lines of a document by their place. A fence stands at the beginning of its line.
pub fn parts(document: &str) -> impl Iterator<Item = Part<'_>> {
    let mut open = false;
    document.lines().map(move |line| {
        let Some(info) = line.strip_prefix(FENCE) else {
            return if open {
                Part::Inside(line)
            } else {
                Part::Outside(line)
            };
        };
        open = !open;
        if open {
            Part::Opens(info.trim())
        } else {
            Part::Closes
        }
    })
}

/// Whether the last line was of a command, so that `> ` goes on with it.
fn goes_on(example: &Example) -> bool {
    example.printed.is_empty()
}

/// Adds a line of a console block to its examples.
fn take(examples: &mut Vec<Example>, first: bool, number: usize, line: &str) -> Result<(), String> {
    if let Some(command) = line.strip_prefix("$ ") {
        examples.push(Example {
            line: number,
            command: command.to_string(),
            printed: String::new(),
        });
        return Ok(());
    }
    let last = examples.last_mut().filter(|_| !first);
    let last = last.ok_or(format!("line {number}: the block begins with no command"))?;
    match line.strip_prefix("> ") {
        Some(more) if goes_on(last) => last.command += &format!("\n{more}"),
        _ => last.printed += &format!("{line}\n"),
    }
    Ok(())
}

/// The examples of a document, in order.
pub fn examples(document: &str) -> Result<Vec<Example>, String> {
    let mut examples = Vec::new();
    let mut console = false;
    let mut first = false;
    let mut open = false;
    for (place, part) in parts(document).enumerate() {
        match part {
            Part::Opens(info) => (open, console, first) = (true, info == "console", true),
            Part::Closes => (open, console) = (false, false),
            Part::Inside(line) if console => {
                take(&mut examples, first, place + 1, line)?;
                first = false;
            }
            Part::Outside(line) if line.trim() == "```console" => {
                return Err(format!("line {}: an indented block is not run", place + 1));
            }
            _ => {}
        }
    }
    if open {
        return Err("the last block is not closed".to_string());
    }
    Ok(examples)
}

#[cfg(test)]
mod tests {
    use super::*;

    #[test]
    fn commands_and_what_they_print() {
        let found =
            examples("a\n```console\n$ one\n$ two \\\n> more\nout\n> out\n```\n```\n$ no\n```\n");
        let wanted = [(3, "one", ""), (4, "two \\\nmore", "out\n> out\n")];
        let wanted = wanted.map(|(line, command, printed)| Example {
            line,
            command: command.to_string(),
            printed: printed.to_string(),
        });
        assert_eq!(found, Ok(wanted.into()));
    }

    #[test]
    fn blocks_out_of_form() {
        for document in [
            "```console\nout\n```\n",
            "```console\n$ one\n```\n```console\nout\n```\n",
            "```console\n$ one\n",
            "- list\n  ```console\n  $ one\n  ```\n",
        ] {
            assert!(examples(document).is_err(), "{document}");
        }
    }
}
