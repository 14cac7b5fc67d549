// The two programs under load: what one prints for a text in a process of its own.

use super::files::Largest;
use crate::child::{run, Way};
use crate::programs::Paths;
use crate::report::same;
use crate::text::{first_difference, shown, Program, Text};
use std::ffi::OsStr;
use std::path::Path;

pub const BOTH: [Program; 2] = [Program::Encode, Program::Expand];

/// The two programs, by where they stand.
pub struct Programs(Paths);

impl Programs {
    pub fn find() -> Result<Programs, String> {
        Paths::find().map(Programs)
    }

    pub fn of(&self, program: Program) -> &Path {
        self.0.of(program)
    }

    /// A program and the file of its largest text, as words of the shell.
    pub fn words<'a>(&'a self, largest: &'a Largest) -> [&'a OsStr; 2] {
        let program = self.of(largest.text.program);
        [program.as_os_str(), largest.path.as_os_str()]
    }

    /// What is printed for a text. Nothing else is printed, and the status is 0.
    pub fn answer(&self, text: &Text) -> Result<Vec<u8>, String> {
        let ended = run(self.of(text.program), &text.bytes, Way::Whole)?;
        same("standard error", shown(&ended.errors), shown(b""))?;
        match ended.status.success() {
            true => Ok(ended.printed),
            false => Err(ended.status.to_string()),
        }
    }

    /// Fails unless just these bytes are printed for a text.
    pub fn judge(&self, text: &Text, known: &[u8]) -> Result<(), String> {
        let printed = self.answer(text);
        match printed {
            Ok(printed) if printed == known => Ok(()),
            Ok(printed) => Err(first_difference(&printed, known)),
            Err(why) => Err(why),
        }
        .map_err(|why| format!("{why}, {}", text.shown()))
    }
}
