// One instruction as objdump prints it, and the symbol that the linker fills in there.

/// A symbol, and how many bytes behind it.
#[derive(Clone, Debug, PartialEq)]
pub struct Symbol {
    pub name: String,
    pub offset: i64,
}

/// An instruction: its address in its section, its name without prefixes, its operands, and the symbol that is filled in, if any.
#[derive(Clone, Debug, PartialEq)]
pub struct Instruction {
    pub address: u64,
    pub name: String,
    pub operands: Vec<String>,
    pub symbol: Option<Symbol>,
}

/// Words before an instruction's name.
const PREFIXES: [&str; 10] = [
    "data16", "cs", "ds", "es", "rep", "repz", "repnz", "lock", "bnd", "notrack",
];

pub fn hex(text: &str) -> Option<u64> {
    u64::from_str_radix(text.strip_prefix("0x").unwrap_or(text), 16).ok()
}

/// `name+0x10`, `name-0x4` or `name`.
pub fn symbol(text: &str) -> Option<Symbol> {
    let Some(place) = text.rfind("+0x").or(text.rfind("-0x")) else {
        let name = text.to_string();
        return Some(Symbol { name, offset: 0 });
    };
    let size = i64::try_from(hex(&text[place + 1..])?).ok()?;
    let offset = if text[place..].starts_with('-') {
        -size
    } else {
        size
    };
    let name = text[..place].to_string();
    Some(Symbol { name, offset })
}

/// The operands, parted by the commas outside of parentheses.
fn operands(text: &str) -> Vec<String> {
    let mut inside = 0;
    let parts = text.split(|letter| {
        inside += i32::from(letter == '(') - i32::from(letter == ')');
        letter == ',' && inside == 0
    });
    let parts = parts.map(|part| part.trim().to_string());
    parts.filter(|part| !part.is_empty()).collect()
}

/// An instruction from a line `address:` tab `text`.
pub fn instruction(line: &str) -> Option<Instruction> {
    let (address, text) = line.trim_start().split_once(":\t")?;
    let text = text.split('#').next()?.trim();
    let mut rest = text;
    loop {
        let (name, after) = rest.split_once(' ').unwrap_or((rest, ""));
        if !PREFIXES.contains(&name) {
            return Some(Instruction {
                address: hex(address)?,
                name: name.to_string(),
                operands: operands(after),
                symbol: None,
            });
        }
        rest = after.trim_start();
    }
}

#[cfg(test)]
mod tests {
    use super::*;

    #[test]
    fn lines() {
        let read = instruction("  2b:\tmov    %r14b,-0x28(%rsp,%r11,1)").unwrap();
        assert_eq!((read.address, read.name.as_str()), (0x2b, "mov"));
        assert_eq!(read.operands, ["%r14b", "-0x28(%rsp,%r11,1)"]);
        let read = instruction(" 4:\tdata16 cs nopw 0x0(%rax,%rax,1)").unwrap();
        assert_eq!(read.name, "nopw");
        let read = instruction(" 935:\tlea    0x0(%rip),%rcx        # 93c <f+0x93c>").unwrap();
        assert_eq!(read.operands, ["0x0(%rip)", "%rcx"]);
        assert_eq!(instruction("0000000000000000 <f>:"), None);
    }

    #[test]
    fn symbols() {
        let of = |name: &str, offset| {
            Some(Symbol {
                name: name.into(),
                offset,
            })
        };
        assert_eq!(symbol("memset-0x4"), of("memset", -4));
        assert_eq!(symbol(".rodata.a::b+0x24"), of(".rodata.a::b", 0x24));
        assert_eq!(symbol("memset"), of("memset", 0));
    }
}
