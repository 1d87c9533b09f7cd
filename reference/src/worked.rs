//! The worked lines P1 to P12 of document 01 as cases. What must come of them
//! stands in `tests/worked_lines.rs`.

use crate::case::Runs;
use crate::opcodes::sets::code_of;
use crate::types::Registers;
use crate::words::instruction;

/// An instruction word by its mnemonic.
pub fn op(name: &str, imm: i32) -> u32 {
    instruction(code_of(name), imm as u32)
}

fn small(regs: Registers, program: &[u32], budget: u64) -> Runs {
    Runs::new(4096, Registers { sp: 0x1000, ..regs }).words(regs.pc, program).run(budget)
}

fn ab(a: u32, b: u32) -> Registers {
    Registers { a, b, ..Registers::default() }
}

/// P11's machine, its table word given: paging on, the program in page 1, so
/// that its fetch goes through the directory word of the access.
fn paged(table_word: u32, instruction: u32) -> Runs {
    let regs = Registers { pdir: 0x1000, paging: true, pc: 0x1800, ..ab(0x10, 0x10) };
    Runs::new(16_384, regs)
        .words(0x1000, &[0x2007])
        .words(0x2000, &[table_word, 0x1007])
        .words(0x1800, &[instruction])
        .run(1)
}

/// The same with the program under another directory word, at 0x400100: its
/// fetch marks the words at 0x1004 and 0, and neither word of the access.
fn paged_apart(table_word: u32, instruction: u32) -> Runs {
    let regs = Registers { pdir: 0x1000, paging: true, pc: 0x40_0100, ..ab(0x10, 0x10) };
    Runs::new(16_384, regs)
        .words(0, &[0x0007])
        .words(0x100, &[instruction])
        .words(0x1000, &[0x2007, 0x0007])
        .words(0x2000, &[table_word])
        .words(0x3010, &[0x1234_5678])
        .run(1)
}

/// P11 and P12 with the marks of the access alone, and the fetch without an
/// access. They are no cases of the stored set, which has P11 and P12 as below.
pub fn marks_apart() -> Vec<(&'static str, Runs)> {
    vec![
        ("no access", paged_apart(0x3007, op("NOP", 0))),
        ("P11 read", paged_apart(0x3007, op("LX", 0))),
        ("P11 write", paged_apart(0x3007, op("SX", 0))),
        ("P12", paged_apart(0x4007, op("LX", 0))),
    ]
}

/// All worked lines with their names; P3, P4, P7 and P11 take several.
pub fn worked_lines() -> Vec<(&'static str, Runs)> {
    let p3 = ab(0xffff_fff9, 2);
    let p4 = ab(0x8000_0000, 0);
    let p7 = ab(5, 5);
    let call = Registers { pc: 0x14, ..ab(0, 0) };
    let p9 = Registers { user: true, iena: true, ksp: 0x800, ivec: 0x100, ..ab(0, 0) };
    let p10 = Registers { c: 2, ..ab(0x200, 0x100) };
    vec![
        ("P1", small(ab(1, 0), &[op("LI", 0), op("LHI", 0x92_7c00)], 2)),
        ("P2", small(ab(1, 0), &[op("LI", 0xff_ffff)], 1)),
        ("P3 DIV", small(p3.clone(), &[op("DIV", 0)], 1)),
        ("P3 MOD", small(p3.clone(), &[op("MOD", 0)], 1)),
        ("P3 DVU", small(p3, &[op("DVU", 0)], 1)),
        ("P4 SHRI 31", small(p4.clone(), &[op("SHRI", 31)], 1)),
        ("P4 SRUI 31", small(p4.clone(), &[op("SRUI", 31)], 1)),
        ("P4 SHRI 32", small(p4, &[op("SHRI", 32)], 1)),
        ("P5 P6", small(call, &[0xffff_e805], 1).words(0, &[2]).run(1)),
        ("P7 GE", small(p7.clone(), &[op("GE", 0)], 1)),
        ("P7 BGE", small(p7, &[op("BGE", 0x20)], 1)),
        ("P8", small(ab(0x1122_3344, 0x103), &[op("SX", 0)], 1)),
        ("P9", small(p9, &[op("STI", 0)], 1)),
        ("P10", small(p10, &[op("MCPY", 0)], 10).bytes(0x100, &[7, 8, 9])),
        ("P11 read", paged(0x3007, op("LX", 0)).words(0x3010, &[0x1234_5678])),
        ("P11 write", paged(0x3007, op("SX", 0))),
        ("P12", paged(0x4007, op("LX", 0))),
    ]
}
