// The two text entries against the second program: the answer, every byte of the lent buffer, and the text itself.
// Document 01, "Sheet and seed list" and "Refusal sheet"; document 02, R-5.

use crate::lent::{lend, room};
use crate::parts::tried;
use seeds::raw::{self, TextAnswer};

/// A text entry of the library.
type Entry = unsafe extern "C" fn(*const u8, usize, *mut u8, usize) -> TextAnswer;

/// How many lines of a text begin with a key.
fn lines(text: &[u8], key: &[u8]) -> usize {
    let lines = text.split_inclusive(|&byte| byte == b'\n');
    lines.filter(|line| line.starts_with(key)).count()
}

/// The number of a line `key=number`, and the bytes behind it.
fn number_line<'a>(key: &[u8], bytes: &'a [u8]) -> Option<(usize, &'a [u8])> {
    let rest = bytes.strip_prefix(key)?;
    let end = rest.iter().position(|&byte| byte == b'\n')?;
    let number = std::str::from_utf8(&rest[..end]).ok()?.parse().ok()?;
    Some((number, &rest[end + 1..]))
}

/// The refusal that a text of two lines is.
fn refusal(printed: &[u8]) -> Option<(usize, usize)> {
    let (number, rest) = number_line(b"refused=", printed)?;
    let (value, rest) = number_line(b"at=", rest)?;
    rest.is_empty().then_some((number, value))
}

/// The answer to a text for which the second program prints this, with a buffer of `room` bytes. Cause 9 comes last.
fn expected(printed: &[u8], key: &[u8], room: usize) -> TextAnswer {
    let needed = printed.len();
    let (number, value, entries) = match refusal(printed) {
        Some((number, value)) => (number, value, 0),
        None if needed <= room => (0, needed, lines(printed, key)),
        None => (9, needed, lines(printed, key)),
    };
    TextAnswer {
        number,
        value,
        entries,
    }
}

/// One text through an entry. Behind the text stand bytes that would change its answer if they were read.
fn compare(entry: Entry, text: &[u8], printed: &[u8], key: &[u8], choice: u8) {
    let lent = room(choice, printed.len());
    let known = expected(printed, key, lent);
    let written = if known.number == 0 { printed } else { &[] };
    let mut input = text.to_vec();
    input.extend_from_slice(b"\nslice=0\n");
    let before = input.clone();
    let answer = lend(
        lent,
        written,
        |place| (place * 7 + 3) as u8,
        |out| unsafe { entry(input.as_ptr(), text.len(), out.as_mut_ptr(), out.len()) },
    );
    assert_eq!(answer, known, "the answer");
    assert_eq!(input, before, "the text");
}

/// A sheet through the encoding entry; its list, if it is accepted, through the expanding entry.
pub fn sheet(text: &[u8], choice: u8) {
    let cells = number_line(b"cells=", text).map_or(0, |(cells, _)| cells);
    let slices = lines(text, b"slice=");
    if tried(cells, slices) < slices.min(2049) {
        return;
    }
    let printed = second::encode_text(text);
    compare(raw::seeds_encode_text, text, &printed, b"seed=", choice);
    if refusal(&printed).is_none() {
        list(&printed, choice);
    }
}

/// The text with another total in its line of it.
fn with_total(text: &[u8], total: usize) -> Vec<u8> {
    let lines = text.split_inclusive(|&byte| byte == b'\n');
    let other = lines.map(|line| match line.starts_with(b"slices=") {
        true => format!("slices={total}\n").into_bytes(),
        false => line.to_vec(),
    });
    other.collect::<Vec<_>>().concat()
}

/// One list through the expanding entry: what the second program prints.
fn one_list(text: &[u8], choice: u8) -> Vec<u8> {
    let printed = second::expand_text(text);
    compare(raw::seeds_expand_text, text, &printed, b"slice=", choice);
    printed
}

/// A list through the expanding entry; where its seeds are expanded, also with the total that they come to, one less and one more.
pub fn list(text: &[u8], choice: u8) {
    let printed = one_list(text, choice);
    let total = match refusal(&printed) {
        Some((14, total)) => total,
        Some(_) => return,
        None => lines(&printed, b"slice="),
    };
    for near in total.saturating_sub(1)..=total + 1 {
        one_list(&with_total(text, near), choice);
    }
}
