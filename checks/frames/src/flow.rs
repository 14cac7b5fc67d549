// How many bytes a function has on the stack at each of its instructions, followed along all its ways from the first on.

use crate::disassembly::Function;
use crate::effect::{effect, is_filling, Effect};
use crate::library::{Library, Target};
use crate::probe;

/// A call: what is called, and the caller's bytes below the callee's, with the return address. A jump to another function at the end leaves none.
#[derive(Clone, Debug, PartialEq)]
pub struct Call {
    pub callee: String,
    pub bytes: u64,
}

/// The frame of a function: the most bytes that it has on the stack, and its calls.
#[derive(Debug, PartialEq)]
pub struct Frame {
    pub most: u64,
    pub calls: Vec<Call>,
}

/// Bytes of a return address.
pub const RETURN: i64 = 8;

struct Flow<'a> {
    library: &'a Library,
    function: &'a Function,
    depths: Vec<Option<i64>>,
    passed: Vec<bool>,
    open: Vec<usize>,
    most: i64,
    calls: Vec<Call>,
}

impl Flow<'_> {
    /// An instruction is reached with so many bytes on the stack: by every way the same.
    fn reach(&mut self, place: usize, depth: i64) -> Option<()> {
        self.most = self.most.max(depth);
        match *self.depths.get(place)? {
            Some(known) => (known == depth).then_some(()),
            None => {
                self.depths[place] = Some(depth);
                self.open.push(place);
                Some(())
            }
        }
    }

    fn call(&mut self, callee: String, depth: i64) -> Option<()> {
        let bytes = u64::try_from(depth).ok()?;
        let call = Call { callee, bytes };
        if !self.calls.contains(&call) {
            self.calls.push(call);
        }
        Some(())
    }

    /// A jump: inside the function, or to another one.
    fn jump(&mut self, place: usize, depth: i64) -> Option<()> {
        let one = &self.function.instructions[place];
        match self.library.target(self.function, one)? {
            Target::Inside(to) => self.reach(to, depth),
            Target::Function(name) => self.call(name, depth),
        }
    }

    fn table(&mut self, place: usize, depth: i64) -> Option<()> {
        let targets = self.library.tables.targets(self.function, place)?;
        targets.iter().try_for_each(|&to| self.reach(to, depth))
    }

    /// What follows an instruction, or `None` where that can't be read.
    fn follow(&mut self, place: usize, depth: i64) -> Option<()> {
        let one = &self.function.instructions[place];
        if let Some(bytes) = probe::taken(&self.function.instructions[place..]) {
            self.passed[place..place + probe::LENGTH].fill(true);
            return self.reach(place + probe::LENGTH, depth + bytes);
        }
        self.passed[place] = true;
        match effect(one)? {
            Effect::Next(bytes) => self.reach(place + 1, depth + bytes),
            Effect::Jump { always: true } => self.jump(place, depth),
            Effect::Jump { always: false } => {
                self.jump(place, depth)?;
                self.reach(place + 1, depth)
            }
            Effect::Call => {
                let Target::Function(name) = self.library.target(self.function, one)? else {
                    return None;
                };
                self.call(name, depth + RETURN)?;
                self.reach(place + 1, depth)
            }
            Effect::Table => self.table(place, depth),
            Effect::Return => (depth == 0).then_some(()),
            Effect::End => Some(()),
        }
    }
}

/// The frame of a function. An instruction that is not understood is refused, and so is one that no way leads to.
pub fn frame(library: &Library, function: &Function) -> Result<Frame, String> {
    let count = function.instructions.len();
    let said = |place: usize| {
        let one = &function.instructions[place];
        let operands = one.operands.join(",");
        format!(
            "{} at {:x}: {} {operands}",
            function.name, one.address, one.name
        )
    };
    let mut flow = Flow {
        library,
        function,
        depths: vec![None; count],
        passed: vec![false; count],
        open: Vec::new(),
        most: 0,
        calls: Vec::new(),
    };
    flow.reach(0, 0)
        .ok_or(format!("{} has no instruction", function.name))?;
    while let Some(place) = flow.open.pop() {
        let depth = flow.depths[place].unwrap_or(0);
        flow.follow(place, depth)
            .ok_or_else(|| format!("not understood: {}", said(place)))?;
    }
    let missed = (0..count).find(|&p| !flow.passed[p] && !is_filling(&function.instructions[p]));
    if let Some(place) = missed {
        return Err(format!("not reached: {}", said(place)));
    }
    let most = u64::try_from(flow.most).map_err(|why| why.to_string())?;
    let calls = flow.calls;
    Ok(Frame { most, calls })
}

#[cfg(test)]
mod tests {
    use super::*;

    /// The frame of the first of the functions that objdump prints so; `=` stands for a tab.
    fn first(code: &[&str], constants: &[&str]) -> Result<Frame, String> {
        let code = format!("Disassembly of section .text.f:\n\n{}", code.join("\n"));
        let code = code.replace('=', "\t");
        let library = Library::of(&code, &constants.join("\n"))?;
        frame(&library, &library.functions[0])
    }

    fn call(callee: &str, bytes: u64) -> Call {
        let callee = callee.to_string();
        Call { callee, bytes }
    }

    #[test]
    fn calls_and_the_most_bytes() {
        let code = [
            "0000000000000000 <f>:",
            "   0:=push   %rbx",
            "   1:=sub    $0x20,%rsp",
            "   5:=test   %rdi,%rdi",
            "   8:=je     14 <f+0x14>",
            "   a:=push   %rax",
            "   b:=call   10 <f+0x10>",
            "===c: R_X86_64_PLT32=memset-0x4",
            "  10:=pop    %rax",
            "  11:=call   0 <f>",
            "  14:=add    $0x20,%rsp",
            "  18:=pop    %rbx",
            "  19:=jmp    1e <f+0x1e>",
            "===1a: R_X86_64_PLT32=.text.g-0x4",
            "  1e:=nop",
            "",
            "Disassembly of section .text.g:",
            "0000000000000000 <g>:",
            "   0:=ret",
        ];
        let read = first(&code, &[]).unwrap();
        assert_eq!(read.most, 48);
        let calls = [call("g", 0), call("memset", 56), call("f", 48)];
        assert_eq!(read.calls.len(), calls.len());
        assert!(calls.iter().all(|call| read.calls.contains(call)));
    }

    /// A jump through the table behind another one: its entries are counted from its own begin.
    #[test]
    fn tables() {
        let code = [
            "0000000000000000 <f>:",
            "   0:=push   %rbx",
            "   1:=lea    0x0(%rip),%rcx        # 8 <f+0x8>",
            "===4: R_X86_64_PC32=.rodata.f+0x4",
            "   8:=movslq (%rcx,%rdi,4),%rsi",
            "   c:=add    %rcx,%rsi",
            "   f:=jmp    *%rsi",
            "  11:=pop    %rbx",
            "  12:=ret",
            "  13:=sub    $0x40,%rsp",
            "  17:=jmp    13 <f+0x13>",
        ];
        let of = |second: &str| {
            let second = format!("000000000000000c R_X86_64_PC32     .text.f+0x{second}");
            let constants = [
                "RELOCATION RECORDS FOR [.rodata.f]:",
                "0000000000000000 R_X86_64_PC32     .text.f+0x99",
                "0000000000000008 R_X86_64_PC32     .text.f+0x11",
                &second,
            ];
            first(&code, &constants).unwrap_err()
        };
        assert!(of("17").contains("not understood: f at 17: jmp"));
        assert!(of("15").contains("not reached: f at 13"));
        assert!(of("18").contains("not understood: f at f: jmp"));
    }

    #[test]
    fn refused() {
        for (line, why) in [
            ("   1:=call   *%rax", "not understood: f at 1"),
            ("   1:=mov    %rbp,%rsp", "not understood: f at 1"),
            ("   1:=jmp    *%rax", "not understood: f at 1"),
            ("   1:=push   %rax", "not understood: f at 5: ret"),
            ("   1:=jmp    5 <f+0x5>", "not reached: f at 4"),
        ] {
            let code = [
                "0000000000000000 <f>:",
                line,
                "   4:=mov    %rax,%rbx",
                "   5:=ret",
            ];
            let said = first(&code, &[]).unwrap_err();
            assert!(said.contains(why), "{line}: {said}");
        }
    }
}
