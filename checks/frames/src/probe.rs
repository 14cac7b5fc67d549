// Stack probes: a frame of many pages is taken step by step, each step a page or less and touched, so that a stack that is too small is hit
// at its guard page. The compiler's step S is 0xc00 or 0x1000.
//     mov %rsp,R; sub $N,R; P: sub $S,%rsp; movq $0x0,(%rsp); cmp R,%rsp; jne P

use crate::effect::constant;
use crate::instruction::{hex, Instruction};

/// How many instructions a probe has.
pub const LENGTH: usize = 6;

/// The bytes of a page, which a step may not pass.
const PAGE: i64 = 0x1000;

/// The bytes that a probe takes which begins with the first of these instructions.
pub fn taken(from: &[Instruction]) -> Option<i64> {
    let [copy, far, page, touch, compare, again, ..] = from else {
        return None;
    };
    let is = |one: &Instruction, name: &str, operands: [&str; 2]| {
        one.name == name && one.operands == operands
    };
    let register = copy.operands.get(1)?;
    let by = far.operands.first()?;
    let step = page.operands.first()?;
    let to = again.operands.first()?.split(' ').next()?;
    let all = is(copy, "mov", ["%rsp", register])
        && is(far, "sub", [by, register])
        && is(page, "sub", [step, "%rsp"])
        && is(touch, "movq", ["$0x0", "(%rsp)"])
        && is(compare, "cmp", [register, "%rsp"])
        && again.name == "jne"
        && hex(to) == Some(page.address);
    let (bytes, step) = (constant(by)?, constant(step)?);
    let steps = (1..=PAGE).contains(&step) && bytes > 0 && bytes % step == 0;
    (all && steps).then_some(bytes)
}

#[cfg(test)]
mod tests {
    use super::*;
    use crate::instruction::instruction;

    const PROBE: [&str; 6] = [
        " a:\tmov    %rsp,%r11",
        " d:\tsub    $0x65000,%r11",
        " 14:\tsub    $0x1000,%rsp",
        " 1b:\tmovq   $0x0,(%rsp)",
        " 23:\tcmp    %r11,%rsp",
        " 26:\tjne    14 <f+0x14>",
    ];

    fn of(lines: [&str; 6]) -> Option<i64> {
        let read: Vec<Instruction> = lines.iter().filter_map(|line| instruction(line)).collect();
        taken(&read)
    }

    #[test]
    fn a_probe_and_what_is_none() {
        assert_eq!(of(PROBE), Some(0x65000));
        for (place, other) in [
            (1, " d:\tsub    $0x65010,%r11"),
            (1, " d:\tsub    $0x65000,%r10"),
            (5, " 26:\tjne    1b <f+0x1b>"),
        ] {
            let mut lines = PROBE;
            lines[place] = other;
            assert_eq!(of(lines), None);
        }
    }

    #[test]
    fn a_probe_in_other_steps() {
        let steps = |step: &'static str, all: &'static str| {
            let mut lines = PROBE;
            (lines[1], lines[2]) = (all, step);
            of(lines)
        };
        let all = " d:\tsub    $0xfc00,%r11";
        assert_eq!(steps(" 14:\tsub    $0xc00,%rsp", all), Some(0xfc00));
        assert_eq!(steps(" 14:\tsub    $0x1000,%rsp", all), None);
        assert_eq!(steps(" 14:\tsub    $0xfc00,%rsp", all), None);
    }
}
