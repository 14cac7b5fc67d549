// A text for one of the two programs, what must come of it by the second program, and how it is shown where something differs.

use second::Refused;

/// The two programs, which are library entries too.
#[derive(Clone, Copy, Debug, PartialEq)]
pub enum Program {
    Encode,
    Expand,
}

impl Program {
    /// The key of the lines that an accepted text has as entries: seeds or slices.
    fn entry(self) -> &'static [u8] {
        match self {
            Program::Encode => b"seed=",
            Program::Expand => b"slice=",
        }
    }

    /// What the second program prints.
    fn prints(self, text: &[u8]) -> Vec<u8> {
        match self {
            Program::Encode => second::encode_text(text),
            Program::Expand => second::expand_text(text),
        }
    }

    pub fn name(self) -> &'static str {
        match self {
            Program::Encode => "encode",
            Program::Expand => "expand",
        }
    }
}

/// A text and the program that it is for.
#[derive(Clone)]
pub struct Text {
    pub program: Program,
    pub bytes: Vec<u8>,
}

/// What must come of a text: what is printed; the refusal that this is, or the number of seeds or slices in it.
pub struct Told {
    pub printed: Vec<u8>,
    pub answer: Result<usize, Refused>,
}

/// The number of a line `key=number`, and the bytes behind it.
fn number_line<'a>(key: &str, bytes: &'a [u8]) -> Option<(u64, &'a [u8])> {
    let rest = bytes.strip_prefix(key.as_bytes())?;
    let end = rest.iter().position(|&byte| byte == b'\n')?;
    let number = std::str::from_utf8(&rest[..end]).ok()?.parse().ok()?;
    Some((number, &rest[end + 1..]))
}

/// The refusal that a text of two lines is.
pub fn refusal(printed: &[u8]) -> Option<Refused> {
    let (number, rest) = number_line("refused=", printed)?;
    let (value, rest) = number_line("at=", rest)?;
    rest.is_empty().then_some(Refused { number, value })
}

impl Text {
    pub fn new(program: Program, bytes: Vec<u8>) -> Text {
        Text { program, bytes }
    }

    /// The second program's answer.
    pub fn told(&self) -> Told {
        let printed = self.program.prints(&self.bytes);
        let entry = self.program.entry();
        let answer = match refusal(&printed) {
            Some(refused) => Err(refused),
            None => {
                let lines = printed.split_inclusive(|&byte| byte == b'\n');
                Ok(lines.filter(|line| line.starts_with(entry)).count())
            }
        };
        Told { printed, answer }
    }

    /// The program's name and the text, shortened.
    pub fn shown(&self) -> String {
        format!("{} of {}", self.program.name(), shown(&self.bytes))
    }
}

/// Bytes with escapes; of many, the first and the last.
pub fn shown(bytes: &[u8]) -> String {
    const ENDS: usize = 400;
    if bytes.len() <= 2 * ENDS {
        return format!("\"{}\"", bytes.escape_ascii());
    }
    let (first, last) = (&bytes[..ENDS], &bytes[bytes.len() - ENDS..]);
    format!(
        "\"{}\" .. \"{}\" ({} bytes)",
        first.escape_ascii(),
        last.escape_ascii(),
        bytes.len()
    )
}

/// Where two outputs differ first, with what stands there.
pub fn first_difference(ours: &[u8], theirs: &[u8]) -> String {
    let pairs = ours.iter().zip(theirs);
    let place = pairs.take_while(|(ours, theirs)| ours == theirs).count();
    let from = place.saturating_sub(20);
    let near = |bytes: &[u8]| shown(&bytes[from..bytes.len().min(place + 40)]);
    format!(
        "{} against {} bytes, from byte {from}: {} against {}",
        ours.len(),
        theirs.len(),
        near(ours),
        near(theirs)
    )
}
