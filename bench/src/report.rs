// The report: each line is printed as it comes and kept for the file.

pub struct Report {
    text: String,
}

impl Report {
    pub fn new() -> Report {
        Report {
            text: String::new(),
        }
    }

    pub fn line(&mut self, line: &str) {
        println!("{line}");
        self.text.push_str(line);
        self.text.push('\n');
    }

    /// A paragraph, with an empty line before it.
    pub fn paragraph(&mut self, text: &str) {
        self.line("");
        self.line(text);
    }

    pub fn text(&self) -> &str {
        &self.text
    }
}
