//! Tables: an operation on many operands in one run. A row's operands are
//! popped from the stack, and its result goes to where the first one stood.

use super::{bare, kernel, PROGRAM};
use crate::case::Runs;
use crate::opcodes::sets::code_of;
use crate::types::Registers;
use crate::words::instruction;
use crate::worked::op;

/// Where a table's rows begin: a, four bytes, b, four bytes each.
pub const ROWS: u32 = 0x800;
/// What a branch that is not taken leaves in its row.
pub const NOT_TAKEN: u32 = 77;

pub const ARITHMETIC: [&str; 13] =
    ["ADD", "SUB", "MUL", "DIV", "DVU", "MOD", "MDU", "AND", "OR", "XOR", "SHL", "SHR", "SRU"];
/// Operands of each arithmetic operation; the right ones fit an immediate.
pub const OPERANDS: [(u32, u32); 5] =
    [(7, 3), (-7i32 as u32, 2), (7, -2i32 as u32), (0x8000_0000, u32::MAX), (0x8000_0001, 33)];

pub const COMPARISONS: [&str; 6] = ["EQ", "NE", "LT", "LTU", "GE", "GEU"];
pub const BRANCHES: [&str; 8] = ["BE", "BNE", "BLT", "BLTU", "BGE", "BGEU", "BZ", "BNZ"];
/// Operands of each comparison and branch.
pub const COMPARED: [(u32, u32); 7] =
    [(5, 5), (1, 2), (2, 1), (0x8000_0000, 1), (1, 0x8000_0000), (0, 1), (1, 0)];

pub fn cases() -> Vec<(&'static str, Runs)> {
    // c takes the word that b would: b is another number.
    let stack = |name: &str, _| vec![op("POPA", 0), op("POPC", 0), op(&format!("{name}L"), -8)];
    let immediate =
        |name: &str, b: u32| vec![op("POPA", 0), op("POPC", 0), op(&format!("{name}I"), b as i32)];
    let branch = |name: &str, _| {
        let skipped = [op(name, 8), op("LI", NOT_TAKEN as i32)];
        [&[op("POPA", 0), op("POPB", 0)], &skipped[..]].concat()
    };
    vec![
        ("arithmetic with b", table(&ARITHMETIC, &OPERANDS, on_b)),
        ("arithmetic with imm", table(&ARITHMETIC, &OPERANDS, immediate)),
        ("arithmetic with a word of the stack", table(&ARITHMETIC, &OPERANDS, stack)),
        ("comparisons", table(&COMPARISONS, &COMPARED, on_b)),
        ("branches", table(&BRANCHES, &COMPARED, branch)),
        ("extension", extension(0x9181)),
        ("extension of positive numbers", extension(0x7f12)),
    ]
}

/// A row of an operation on a and b.
pub fn on_b(name: &str, _: u32) -> Vec<u32> {
    vec![op("POPA", 0), op("POPB", 0), op(name, 0)]
}

/// Each operation on each pair of operands, in one run.
pub fn table(names: &[&str], operands: &[(u32, u32)], row: impl Fn(&str, u32) -> Vec<u32>) -> Runs {
    let mut program = Vec::new();
    let mut data = Vec::new();
    for name in names {
        for (a, b) in operands {
            program.extend(row(name, *b));
            program.push(op("SL", -16));
            data.extend([*a, 0, *b, 0]);
        }
    }
    let regs = Registers { sp: ROWS, b: 0x1234_5678, c: 0x2345_6789, ..kernel() };
    let steps = program.len() as u64;
    bare(regs, &program).words(ROWS, &data).run(steps)
}

/// The narrow loads of a and b: at sp+imm, pc+imm, a+imm or b+imm.
pub const NARROW: [&str; 24] = [
    "LLS", "LLH", "LLC", "LLB", "LGS", "LGH", "LGC", "LGB", "LXS", "LXH", "LXC", "LXB", "LBLS",
    "LBLH", "LBLC", "LBLB", "LBGS", "LBGH", "LBGC", "LBGB", "LBXS", "LBXH", "LBXC", "LBXB",
];
/// Where the half stands that they load; bytes are its upper one.
const HALF: u32 = 0xa02;

/// Every narrow load of one half or its upper byte, by an odd address; what is
/// loaded is pushed.
fn extension(half: u32) -> Runs {
    let mut program: Vec<u32> = Vec::new();
    let mut sp = ROWS;
    for name in NARROW {
        let to_b = name.starts_with("LB") && name.len() == 4;
        let base = name.as_bytes()[usize::from(to_b) + 1];
        let at = HALF + 1;
        let pc = PROGRAM + 4 * program.len() as u32;
        let imm = match base {
            b'L' => at - sp,
            b'G' => at.wrapping_sub(pc + 4),
            _ => 3,
        };
        if base == b'X' {
            program.push(op(if to_b { "LBI" } else { "LI" }, at as i32 - 3));
        }
        program.push(instruction(code_of(name), imm));
        program.push(op(if to_b { "PSHB" } else { "PSHA" }, 0));
        sp -= 8;
    }
    let steps = program.len() as u64;
    bare(Registers { sp: ROWS, ..kernel() }, &program).words(HALF - 2, &[half << 16]).run(steps)
}
