// The compiled library: its functions and jump tables, and where a jump or call leads.

use crate::disassembly::{functions, objdump, Function};
use crate::instruction::{hex, Instruction};
use crate::tables::{place_of, Tables};

pub struct Library {
    pub functions: Vec<Function>,
    pub tables: Tables,
}

/// Where a jump or call leads: to an instruction of the same function, or to a function by its name.
#[derive(Debug, PartialEq)]
pub enum Target {
    Inside(usize),
    Function(String),
}

impl Library {
    pub fn read(file: &str) -> Result<Library, String> {
        let code = objdump(&["-dr", "--no-show-raw-insn"], file)?;
        Library::of(&code, &objdump(&["-r"], file)?)
    }

    /// From what objdump prints. Two functions of one name would be mixed up.
    pub fn of(code: &str, constants: &str) -> Result<Library, String> {
        let functions = functions(code)?;
        for (place, function) in functions.iter().enumerate() {
            let name = &function.name;
            if functions[..place].iter().any(|other| other.name == *name) {
                return Err(format!("there are two functions {name}"));
            }
        }
        let tables = Tables::read(constants, &functions)?;
        Ok(Library { functions, tables })
    }

    /// The function that begins at an address of a section.
    fn beginning(&self, section: &str, address: u64) -> Option<&Function> {
        let begins = |f: &&Function| f.section == section && f.start() == Some(address);
        self.functions.iter().find(begins)
    }

    /// Where a jump or call leads: by its symbol where the linker fills one in, else by the address. A symbol that is no section is a function's name.
    pub fn target(&self, from: &Function, one: &Instruction) -> Option<Target> {
        let printed = || hex(one.operands.first()?.split(' ').next()?);
        let (section, address) = match &one.symbol {
            Some(symbol) if symbol.name.starts_with(".text") => {
                (symbol.name.as_str(), place_of(symbol)?)
            }
            Some(symbol) if symbol.name.starts_with('.') || place_of(symbol)? != 0 => return None,
            Some(symbol) => return Some(Target::Function(symbol.name.clone())),
            None => (from.section.as_str(), printed()?),
        };
        if one.name != "call" && section == from.section {
            if let Some(place) = from.at(address) {
                return Some(Target::Inside(place));
            }
        }
        let function = self.beginning(section, address)?;
        Some(Target::Function(function.name.clone()))
    }
}
