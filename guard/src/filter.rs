//! The filter that the kernel asks at every call of a step: the table of [`crate::calls`] as a program of the kernel's
//! packet filter. It looks for the call's number by halves, so that a call which nobody asks about costs little.

use crate::calls::{cases, rule, Case, Rule, END};

/// An instruction, as the kernel has it.
#[repr(C)]
#[derive(Clone, Copy, Debug, PartialEq, Eq)]
pub struct Instruction {
    code: u16,
    then: u8,
    other: u8,
    value: u32,
}

const LOAD: u16 = 0x20;
const AND: u16 = 0x54;
const JUMP: u16 = 0x05;
const IF_EQUAL: u16 = 0x15;
const IF_AT_LEAST: u16 = 0x35;
const RETURN: u16 = 0x06;

/// Where the kernel has the number of the call, the architecture and the first argument.
const NUMBER: u32 = 0;
const ARCHITECTURE: u32 = 4;
const ARGUMENTS: u32 = 16;
const X86_64: u32 = 0xC000_003E;
/// Calls of another form of x86-64, with other numbers for the same.
const X32: u32 = 0x4000_0000;

pub const KILL: u32 = 0x8000_0000;
pub const ERROR: u32 = 0x0005_0000;
pub const NOTIFY: u32 = 0x7fc0_0000;
pub const TRACE: u32 = 0x7ff0_0000;
pub const ALLOW: u32 = 0x7fff_0000;

/// What the filter answers for a rule. A refusal in words is told to the guard, which has them.
fn answer(rule: Rule) -> u32 {
    match rule {
        Rule::Free => ALLOW,
        Rule::Ask | Rule::Refused(..) => NOTIFY,
        Rule::Trace => TRACE,
        Rule::Quiet(error) => ERROR | error as u32,
    }
}

fn plain(code: u16, value: u32) -> Instruction {
    Instruction { code, then: 0, other: 0, value }
}

/// The whole program.
pub fn program() -> Vec<Instruction> {
    let cases = cases();
    let mut leaves: Vec<(u32, Vec<Instruction>)> = Vec::new();
    for call in 0..=END {
        let leaf = leaf(call, cases);
        if leaves.last().is_none_or(|(_, last)| *last != leaf) {
            leaves.push((call, leaf));
        }
    }
    let mut program = vec![
        plain(LOAD, ARCHITECTURE),
        Instruction { code: IF_EQUAL, then: 1, other: 0, value: X86_64 },
        plain(RETURN, KILL),
        plain(LOAD, NUMBER),
        Instruction { code: IF_AT_LEAST, then: 0, other: 1, value: X32 },
        plain(RETURN, KILL),
    ];
    program.extend(tree(&leaves));
    program
}

/// What is done for one call: its cases, and else its rule.
fn leaf(call: u32, cases: &[Case]) -> Vec<Instruction> {
    let mut leaf = Vec::new();
    for case in cases.iter().filter(|case| case.call == call) {
        leaf.push(plain(LOAD, ARGUMENTS + 8 * case.argument));
        leaf.push(plain(AND, case.mask));
        leaf.push(Instruction { code: IF_EQUAL, then: 0, other: 1, value: case.value });
        leaf.push(plain(RETURN, answer(case.rule)));
    }
    leaf.push(plain(RETURN, answer(rule(call))));
    leaf
}

/// The leaf of the number that was loaded, found by halves.
fn tree(leaves: &[(u32, Vec<Instruction>)]) -> Vec<Instruction> {
    if let [(_, leaf)] = leaves {
        return leaf.clone();
    }
    let (low, high) = leaves.split_at(leaves.len() / 2);
    let (first, low, high) = (high[0].0, tree(low), tree(high));
    // A jump over more than 255 instructions is one by itself.
    let mut tree = vec![
        Instruction { code: IF_AT_LEAST, then: 0, other: 1, value: first },
        plain(JUMP, low.len() as u32),
    ];
    tree.extend(low);
    tree.extend(high);
    tree
}

#[cfg(test)]
mod tests {
    use super::*;
    use crate::calls::rule_with;

    /// What the program answers, as the kernel would run it.
    fn run(program: &[Instruction], architecture: u32, call: u32, arguments: &[u64; 6]) -> u32 {
        let (mut at, mut loaded) = (0, 0);
        loop {
            let Instruction { code, then, other, value } = program[at];
            at += 1;
            match code {
                LOAD => {
                    loaded = match value {
                        NUMBER => call,
                        ARCHITECTURE => architecture,
                        other => arguments[(other - ARGUMENTS) as usize / 8] as u32,
                    }
                }
                AND => loaded &= value,
                JUMP => at += value as usize,
                IF_EQUAL => at += usize::from(if loaded == value { then } else { other }),
                IF_AT_LEAST => at += usize::from(if loaded >= value { then } else { other }),
                RETURN => return value,
                _ => panic!("{code:#x}"),
            }
        }
    }

    #[test]
    fn the_program_is_the_table() {
        let program = program();
        assert!(program.len() < 4096, "{}", program.len());
        let values = [
            0,
            1,
            2,
            3,
            4,
            8,
            17,
            22,
            33,
            35,
            128,
            1024,
            0x100,
            0x411,
            0x4111,
            0x5401,
            0x5412,
            0x541c,
            0x8000_0000,
            0x1_0900,
            0x1_0f00,
            0x80_0011,
            0x2_0011,
            0x5961_6d61,
            0x4004_9409,
            0x4020_940d,
            0xc018_9436,
            !0,
        ];
        for call in (0..600).chain([X32 - 1]) {
            for argument in 0..4 {
                for value in values {
                    let mut arguments = [0; 6];
                    arguments[argument] = value;
                    let found = run(&program, X86_64, call, &arguments);
                    assert_eq!(found, answer(rule_with(call, &arguments)), "{call} {argument} {value:#x}");
                }
            }
        }
    }

    #[test]
    fn other_architectures_end() {
        let program = program();
        assert_eq!(run(&program, 0x4000_0003, 5, &[0; 6]), KILL);
        assert_eq!(run(&program, X86_64, X32 | 2, &[0; 6]), KILL);
    }
}
