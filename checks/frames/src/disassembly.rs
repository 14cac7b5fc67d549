// The functions of the library, with their instructions, as `objdump -dr` prints them.

use crate::instruction::{instruction, symbol, Instruction};
use std::process::Command;

/// A function: its section, and its instructions there.
#[derive(Debug)]
pub struct Function {
    pub name: String,
    pub section: String,
    pub instructions: Vec<Instruction>,
}

impl Function {
    /// The place of the instruction at an address.
    pub fn at(&self, address: u64) -> Option<usize> {
        let place = |one: &Instruction| one.address.cmp(&address);
        self.instructions.binary_search_by(place).ok()
    }

    pub fn start(&self) -> Option<u64> {
        Some(self.instructions.first()?.address)
    }
}

/// What objdump prints of a file.
pub fn objdump(options: &[&str], file: &str) -> Result<String, String> {
    let done = Command::new("objdump").args(options).arg(file).output();
    let done = done.map_err(|why| format!("objdump does not start: {why}"))?;
    if !done.status.success() {
        let said = String::from_utf8_lossy(&done.stderr);
        return Err(format!("objdump fails: {}", said.trim()));
    }
    String::from_utf8(done.stdout).map_err(|why| why.to_string())
}

/// `0000000000000000 <name>:` as the name.
fn named(line: &str) -> Option<&str> {
    let (address, name) = line.split_once(" <")?;
    let digits = address.bytes().all(|byte| byte.is_ascii_hexdigit());
    name.strip_suffix(">:").filter(|_| digits)
}

/// A line `address: R_X86_64_KIND` tab `symbol` fills in a symbol in the instruction before it.
fn filled_in(function: &mut Function, line: &str) -> Result<(), String> {
    let read = line.split_once('\t').and_then(|(_, text)| symbol(text));
    let last = function.instructions.last_mut();
    match (read, last) {
        (Some(read), Some(last)) if last.symbol.is_none() => {
            last.symbol = Some(read);
            Ok(())
        }
        _ => Err(format!("can't read the relocation {line}")),
    }
}

/// All functions. A line that is neither an instruction nor a heading is refused.
pub fn functions(text: &str) -> Result<Vec<Function>, String> {
    let mut all: Vec<Function> = Vec::new();
    let mut section = String::new();
    for line in text.lines().filter(|line| !line.trim().is_empty()) {
        if let Some(name) = line.strip_prefix("Disassembly of section ") {
            section = name.trim_end_matches(':').to_string();
        } else if let Some(name) = named(line) {
            all.push(Function {
                name: name.to_string(),
                section: section.clone(),
                instructions: Vec::new(),
            });
        } else if let Some(function) = all.last_mut() {
            if line.contains(": R_X86_64_") {
                filled_in(function, line.trim())?;
            } else {
                let read = instruction(line).ok_or(format!("can't read {line}"))?;
                function.instructions.push(read);
            }
        }
    }
    Ok(all)
}
