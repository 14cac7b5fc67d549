// Jump tables: a `match` with many arms is compiled to a jump through a table of distances, one table behind another in a section of constants.

use crate::disassembly::Function;
use crate::instruction::{hex, symbol, Instruction, Symbol};
use std::collections::{BTreeMap, BTreeSet, HashMap};

/// The tables of each section of constants: where each begins, and the symbols that stand in them.
#[derive(Default)]
pub struct Tables {
    symbols: HashMap<String, BTreeMap<u64, Symbol>>,
    begins: HashMap<String, BTreeSet<u64>>,
}

/// A symbol that is counted from the end of an instruction, as a place in a section: four bytes are behind it.
pub fn place_of(symbol: &Symbol) -> Option<u64> {
    u64::try_from(symbol.offset + 4).ok()
}

/// `lea 0x0(%rip),%rcx` with a symbol: the register and the symbol.
fn loaded(one: &Instruction) -> Option<(&str, &Symbol)> {
    match (one.name.as_str(), &one.operands[..], &one.symbol) {
        ("lea", [from, to], Some(symbol)) if from.ends_with("(%rip)") => Some((to, symbol)),
        _ => None,
    }
}

/// The table of a jump to a register R. Before the jump stand the table's address into a register B, `movslq (B,I,4),R` and `add B,R`.
fn table_of(function: &Function, jump: usize) -> Option<&Symbol> {
    let one = &function.instructions[jump];
    let to = one.operands.first()?.strip_prefix('*')?;
    let mut before = function.instructions[..jump].iter().rev().take(12);
    let adds =
        |one: &&Instruction| one.name == "add" && one.operands.get(1).is_some_and(|r| r == to);
    let base = before.find(adds)?.operands.first()?;
    let read = before.find(|one| one.name == "movslq")?;
    let [from, into] = &read.operands[..] else {
        return None;
    };
    if into != to || !from.starts_with(&format!("({base},")) || !from.ends_with(",4)") {
        return None;
    }
    let mut tables = before.filter_map(loaded);
    tables
        .find(|(register, _)| register == base)
        .map(|(_, table)| table)
}

impl Tables {
    /// From what `objdump -r` prints, and where the functions take the address of a place among constants.
    pub fn read(text: &str, functions: &[Function]) -> Result<Tables, String> {
        let mut tables = Tables::default();
        let mut section = "";
        for line in text.lines() {
            if let Some(name) = line.strip_prefix("RELOCATION RECORDS FOR [") {
                section = name.trim_end_matches("]:");
            } else if section.starts_with(".rodata") && line.contains("R_X86_64_") {
                let mut words = line.split_whitespace();
                let place = words.next().and_then(hex);
                let symbol = words.nth(1).and_then(symbol);
                let (Some(place), Some(symbol)) = (place, symbol) else {
                    return Err(format!("can't read the relocation {line}"));
                };
                let symbols = tables.symbols.entry(section.to_string()).or_default();
                symbols.insert(place, symbol);
            }
        }
        let all = functions.iter().flat_map(|function| &function.instructions);
        for (_, symbol) in all.filter_map(loaded) {
            let begins = tables.begins.entry(symbol.name.clone()).or_default();
            begins.extend(place_of(symbol));
        }
        Ok(tables)
    }

    /// The section and address of each place that a table leads to. An entry is the distance from the begin of its table.
    fn entries(&self, table: &Symbol) -> Option<Vec<(&str, u64)>> {
        let first = place_of(table)?;
        let behind = self.begins.get(&table.name)?.range(first + 1..).next();
        let last = behind.copied().unwrap_or(u64::MAX);
        let mut entries = Vec::new();
        for (place, symbol) in self.symbols.get(&table.name)?.range(first..last) {
            let address = symbol.offset - i64::try_from(place - first).ok()?;
            entries.push((symbol.name.as_str(), u64::try_from(address).ok()?));
        }
        Some(entries)
    }

    /// Where a jump through a register leads, as places of its function.
    pub fn targets(&self, function: &Function, jump: usize) -> Option<Vec<usize>> {
        let entries = self.entries(table_of(function, jump)?)?;
        let inside = entries.iter().map(|&(section, address)| {
            let place = function.at(address);
            place.filter(|_| section == function.section)
        });
        let places: Vec<usize> = inside.collect::<Option<_>>()?;
        Some(places).filter(|places| !places.is_empty())
    }
}
