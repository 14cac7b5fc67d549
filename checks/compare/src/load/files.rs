// The largest sheet and the largest list, also as files of a folder that goes away at the end.

use super::programs::BOTH;
use crate::largest::largest;
use crate::random::Random;
use crate::text::{Program, Text};
use std::fs::{self, File};
use std::path::PathBuf;

/// A text, what must come of it, and the file that it stands in.
pub struct Largest {
    pub text: Text,
    pub known: Vec<u8>,
    pub path: PathBuf,
}

pub struct Files {
    folder: PathBuf,
    sheet: Largest,
    list: Largest,
}

/// The largest sheet that is accepted.
fn sheet() -> Result<Text, String> {
    let texts = largest(&mut Random(52))?.into_iter();
    let mut sheets = texts.filter(|text| text.program == Program::Encode);
    sheets
        .find(|sheet| sheet.told().answer.is_ok())
        .ok_or("no largest sheet is accepted".into())
}

impl Largest {
    fn new(text: Text, path: PathBuf) -> Result<Largest, String> {
        fs::write(&path, &text.bytes).map_err(|why| format!("{}: {why}", path.display()))?;
        let known = text.told().printed;
        Ok(Largest { text, known, path })
    }

    /// The file, to be read.
    pub fn open(&self) -> Result<File, String> {
        File::open(&self.path).map_err(|why| format!("{}: {why}", self.path.display()))
    }
}

impl Files {
    pub fn new() -> Result<Files, String> {
        let name = format!("load-{}", std::process::id());
        let folder = std::env::temp_dir().join(name);
        fs::create_dir_all(&folder).map_err(|why| format!("{}: {why}", folder.display()))?;
        let sheet = Largest::new(sheet()?, folder.join("sheet"))?;
        let list = Text::new(Program::Expand, sheet.known.clone());
        let list = Largest::new(list, folder.join("list"))?;
        Ok(Files {
            folder,
            sheet,
            list,
        })
    }

    /// The largest text for a program.
    pub fn of(&self, program: Program) -> &Largest {
        match program {
            Program::Encode => &self.sheet,
            Program::Expand => &self.list,
        }
    }

    /// The largest texts for both programs.
    pub fn both(&self) -> [&Largest; 2] {
        BOTH.map(|program| self.of(program))
    }

    /// A file that holds a text, to be read.
    pub fn holding(&self, text: &Text) -> Result<File, String> {
        let path = self.folder.join("input");
        let file = fs::write(&path, &text.bytes).and_then(|()| File::open(&path));
        file.map_err(|why| format!("{}: {why}", path.display()))
    }

    /// Where a program may write.
    pub fn output(&self) -> PathBuf {
        self.folder.join("output")
    }
}

impl Drop for Files {
    fn drop(&mut self) {
        let _ = fs::remove_dir_all(&self.folder);
    }
}
