// The fuzz target: libFuzzer hands in bytes, the proved library and the second program answer them, and both must agree.
// The first byte says which entries are called: a sheet, a list, or numbers. The second says how much is lent.
// `checks/fuzz/run SECONDS` builds and runs it; docs/fuzzing.md has the figures.

mod lent;
mod lines;
mod numbers;
mod parts;
mod texts;

use std::slice;

/// Which entries an input is for.
enum Kind {
    Sheet,
    List,
    Numbers,
}

impl Kind {
    fn of(first: u8) -> Kind {
        match first % 3 {
            0 => Kind::Sheet,
            1 => Kind::List,
            _ => Kind::Numbers,
        }
    }
}

/// Runs one input. A difference panics, which ends the process, and libFuzzer keeps the input.
pub fn run(data: &[u8]) {
    let &[first, room, ref rest @ ..] = data else {
        return;
    };
    match Kind::of(first) {
        Kind::Sheet => texts::sheet(rest, room),
        Kind::List => texts::list(rest, room),
        Kind::Numbers => numbers::run(rest, room),
    }
}

/// libFuzzer's entry.
///
/// # Safety
/// `data` leads to `size` bytes.
#[no_mangle]
pub unsafe extern "C" fn LLVMFuzzerTestOneInput(data: *const u8, size: usize) -> i32 {
    if size > 0 {
        run(slice::from_raw_parts(data, size));
    }
    0
}

extern "C" {
    /// libFuzzer's own changes to an input; gives the new size.
    fn LLVMFuzzerMutate(data: *mut u8, size: usize, most: usize) -> usize;
}

/// libFuzzer's hook for changing an input: of texts, every second time, whole lines and digits are changed.
///
/// # Safety
/// `data` leads to `most` bytes, of which `size` are the input.
#[no_mangle]
pub unsafe extern "C" fn LLVMFuzzerCustomMutator(
    data: *mut u8,
    size: usize,
    most: usize,
    seed: u32,
) -> usize {
    let input = slice::from_raw_parts(data, size);
    let text = size > 2 && !matches!(Kind::of(input[0]), Kind::Numbers);
    if !text || seed.is_multiple_of(2) {
        return LLVMFuzzerMutate(data, size, most);
    }
    let mut changed = input[..2].to_vec();
    changed.extend(lines::changed(&input[2..], u64::from(seed)));
    changed.truncate(most);
    slice::from_raw_parts_mut(data, changed.len()).copy_from_slice(&changed);
    changed.len()
}
