// What an instruction does to the stack pointer, and what follows it. What is not known is refused.

use crate::instruction::{hex, Instruction};

/// What an instruction does.
#[derive(Debug, PartialEq)]
pub enum Effect {
    /// The next instruction follows, with so many bytes more on the stack.
    Next(i64),
    /// A call; the next instruction follows.
    Call,
    /// A jump; the next instruction follows too where it is not taken always.
    Jump {
        always: bool,
    },
    /// A jump to the address in a register.
    Table,
    Return,
    /// The program is ended.
    End,
}

const STACK_POINTERS: [&str; 4] = ["%rsp", "%esp", "%sp", "%spl"];

/// What the names of instructions begin with that change the stack pointer, or what follows, in a way that is not read here.
const UNREAD: [&str; 15] = [
    "push", "pop", "call", "ret", "jmp", "leave", "enter", "iret", "lcall", "ljmp", "lret", "int",
    "sys", "loop", "xbegin",
];

/// Instructions that only read their last operand.
const COMPARISONS: [&str; 5] = ["cmp", "cmpq", "test", "testq", "push"];

fn is_stack_pointer(operand: &str) -> bool {
    STACK_POINTERS.contains(&operand)
}

/// `$0x10` as a number. Negative ones are printed as words of 64 bits.
pub fn constant(operand: &str) -> Option<i64> {
    Some(hex(operand.strip_prefix('$')?)? as i64)
}

/// The bytes by which `lea -0x10(%rsp),%rsp` moves the stack pointer up.
fn distance(operand: &str) -> Option<i64> {
    let number = operand.strip_suffix("(%rsp)")?;
    let size = |text| hex(text).and_then(|size| i64::try_from(size).ok());
    match number.strip_prefix('-') {
        Some(number) => Some(-size(number)?),
        None => size(number),
    }
}

/// How many bytes more are on the stack after an instruction that writes to the stack pointer.
fn moved(one: &Instruction) -> Option<i64> {
    let [by, to] = &one.operands[..] else {
        return None;
    };
    match one.name.as_str() {
        _ if to != "%rsp" => None,
        "sub" => constant(by),
        "add" => Some(-constant(by)?),
        "lea" => Some(-distance(by)?),
        _ => None,
    }
}

/// What an instruction does, or `None` where it is not known.
pub fn effect(one: &Instruction) -> Option<Effect> {
    let name = one.name.as_str();
    let starred = one.operands.iter().any(|operand| operand.starts_with('*'));
    let last = one.operands.last().map_or("", String::as_str);
    let exchanges = ["xchg", "xadd", "cmpxchg"].contains(&name);
    match name {
        "push" => Some(Effect::Next(8)),
        "pop" if !is_stack_pointer(last) => Some(Effect::Next(-8)),
        "call" if !starred => Some(Effect::Call),
        "ret" if one.operands.is_empty() => Some(Effect::Return),
        "jmp" if starred => Some(Effect::Table),
        "jmp" => Some(Effect::Jump { always: true }),
        "ud2" => Some(Effect::End),
        "popcnt" => Some(Effect::Next(0)),
        _ if UNREAD.iter().any(|unread| name.starts_with(unread)) => None,
        _ if exchanges && one.operands.iter().any(|o| is_stack_pointer(o)) => None,
        _ if name.starts_with('j') => Some(Effect::Jump { always: false }),
        _ if is_stack_pointer(last) && !COMPARISONS.contains(&name) => moved(one).map(Effect::Next),
        _ => Some(Effect::Next(0)),
    }
}

/// Whether an instruction does nothing: it fills the space between others.
pub fn is_filling(one: &Instruction) -> bool {
    one.name.starts_with("nop") || one.name == "int3" || one.operands == ["%ax", "%ax"]
}

#[cfg(test)]
mod tests {
    use super::*;
    use crate::instruction::instruction;

    fn of(text: &str) -> Option<Effect> {
        effect(&instruction(&format!(" 0:\t{text}")).unwrap())
    }

    #[test]
    fn known() {
        assert_eq!(of("push   0xb8(%rsp)"), Some(Effect::Next(8)));
        assert_eq!(of("pop    %rbx"), Some(Effect::Next(-8)));
        assert_eq!(of("sub    $0x548,%rsp"), Some(Effect::Next(0x548)));
        assert_eq!(of("add    $0x10,%rsp"), Some(Effect::Next(-0x10)));
        assert_eq!(
            of("add    $0xffffffffffffff80,%rsp"),
            Some(Effect::Next(128))
        );
        assert_eq!(of("lea    -0x18(%rsp),%rsp"), Some(Effect::Next(0x18)));
        assert_eq!(of("mov    %rsp,%rdi"), Some(Effect::Next(0)));
        assert_eq!(of("cmp    %r11,%rsp"), Some(Effect::Next(0)));
        assert_eq!(of("popcnt %rax,%rax"), Some(Effect::Next(0)));
        assert_eq!(
            of("jne    14 <f+0x14>"),
            Some(Effect::Jump { always: false })
        );
        assert_eq!(of("ret"), Some(Effect::Return));
    }

    #[test]
    fn refused() {
        let unread = [
            "mov    %rbp,%rsp",
            "and    $0xffffffffffffffc0,%rsp",
            "sub    %rax,%rsp",
            "leave",
            "call   *%rax",
            "call   *0x8(%rax)",
            "pop    %rsp",
            "xchg   %rsp,%rax",
            "ret    $0x8",
            "pushfq",
            "callq  0 <f>",
        ];
        for text in unread {
            assert_eq!(of(text), None, "{text}");
        }
    }
}
