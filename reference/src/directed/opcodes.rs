//! The decisions of document 01 on opcodes.

use super::{bare, kernel, open, paged, user, PROGRAM};
use crate::case::Runs;
use crate::types::Registers;
use crate::worked::op;

const MINUS_1: u32 = u32::MAX;
const MIN: u32 = 0x8000_0000;

pub fn cases() -> Vec<(&'static str, Runs)> {
    [arithmetic(), moves(), blocks(), system()].concat()
}

fn ab(a: u32, b: u32) -> Registers {
    Registers { a, b, ..kernel() }
}

fn arithmetic() -> Vec<(&'static str, Runs)> {
    let one = |a: u32, b: u32, word: u32| bare(ab(a, b), &[word]).run(1);
    let zero = |name: &str| bare(open(ab(5, 0)), &[op(name, 0)]).run(1);
    vec![
        ("DIV overflow", one(MIN, MINUS_1, op("DIV", 0))),
        ("MOD overflow", one(MIN, MINUS_1, op("MOD", 0))),
        ("DIV by zero", zero("DIV")),
        ("MODI by zero", zero("MODI")),
        ("DVUI by zero", zero("DVUI")),
        ("MDU by zero", zero("MDU")),
        ("MOD of 7 by -2", one(7, -2i32 as u32, op("MOD", 0))),
        ("DVUI by -1", one(MINUS_1, 0, op("DVUI", -1))),
        ("MDUI by -2", one(MINUS_1, 0, op("MDUI", -2))),
        ("DVUI by 0x12345", one(0x4001_0240, 0, op("DVUI", 0x1_2345))),
        ("MDUI by 0x12345", one(0x4001_0240, 0, op("MDUI", 0x1_2345))),
        ("LBHI over old bits", one(0x77, 0x1234_5681, op("LBHI", 0xab_cdef))),
        ("LI of -2^23", one(0, 0, op("LI", -0x80_0000))),
        ("ANDI -2", one(MINUS_1, 0, op("ANDI", -2))),
        ("XORI -1", one(1, 0, op("XORI", -1))),
        ("MUL wraps", one(0x10001, 0x10001, op("MUL", 0))),
        ("SHL by 33", one(3, 33, op("SHL", 0))),
        ("SRU by -1", one(MIN, MINUS_1, op("SRU", 0))),
        ("SHR by 64", one(MIN, 64, op("SHR", 0))),
        ("GEU of equals", one(9, 9, op("GEU", 0))),
        ("GE of signs", one(MIN, 1, op("GE", 0))),
        ("BGEU of equals", one(9, 9, op("BGEU", -8))),
        ("LTU of signs", one(MIN, 1, op("LTU", 0))),
        ("LHI over old bits", one(0x1234_5681, 0, op("LHI", 0xab_cdef))),
        ("SUBL reads memory", bare(ab(10, 0), &[op("SUBL", 4)]).words(0xf04, &[3]).run(1)),
        (
            "DIVL by zero leaves the walk",
            paged(Registers { sp: 0x3000, ..ab(1, 0) }, &[op("DIVL", 0)]).run(1),
        ),
    ]
}

fn moves() -> Vec<(&'static str, Runs)> {
    let no_stack = Registers { sp: 0, ..ab(7, 0) };
    let next = [op("SG", 0), op("LI", 1)];
    vec![
        ("PSHI -1", bare(kernel(), &[op("PSHI", -1)]).run(1)),
        ("push keeps four bytes", bare(ab(7, 0), &[op("PSHA", 0)]).bytes(0xef8, &[0xee; 8]).run(1)),
        ("push from sp 0", bare(no_stack.clone(), &[op("PSHA", 0)]).run(1)),
        ("push from sp 0, delivered", bare(open(no_stack), &[op("PSHA", 0)]).run(1)),
        ("JSRA is relative", bare(ab(0x21, 0), &[op("JSRA", 0)]).run(1)),
        ("JMPI", bare(ab(0x43, 0), &[op("JMPI", 0x10)]).run(1)),
        ("JMPI drops low bits", bare(ab(0x47, 0), &[op("JMPI", 0x12)]).run(1)),
        ("NOP with an operand", bare(kernel(), &[op("NOP", 8)]).run(1)),
        ("JMP drops low bits", bare(kernel(), &[op("JMP", 0x23)]).run(1)),
        ("JSR drops low bits", bare(kernel(), &[op("JSR", 0x22)]).run(1)),
        ("JMPI by a negative a", bare(ab(MIN, 0), &[op("JMPI", -8)]).run(1)),
        ("ENT drops low bits", bare(kernel(), &[op("ENT", 12)]).run(1)),
        ("LEV drops low bits", bare(kernel(), &[op("LEV", 13)]).words(0xf00, &[0x207]).run(1)),
        ("branch to an odd target", bare(kernel(), &[op("BZ", 0x23)]).run(1)),
        (
            "SLB stores one byte",
            bare(ab(0x1234, 0), &[op("SLB", 1)]).words(0xf00, &[MINUS_1]).run(1),
        ),
        ("SXH drops one bit", bare(ab(0x1234, 0x201), &[op("SXH", 0)]).run(1)),
        ("LXS extends", bare(ab(0x201, 0), &[op("LXS", 0)]).words(0x200, &[0x8001]).run(1)),
        ("LBXC extends", bare(ab(0, 0x200), &[op("LBXC", 1)]).words(0x200, &[0x8000]).run(1)),
        ("a store into the next instruction", bare(ab(op("LI", 9), 0), &next).run(2)),
    ]
}

fn blocks() -> Vec<(&'static str, Runs)> {
    let abc = |a: u32, b: u32, c: u32| Registers { c, ..ab(a, b) };
    let nowhere = abc(0xffff_0000, 0xffff_0000, 0);
    let data = |runs: Runs| runs.bytes(0x200, &[1, 2, 3, 4]).bytes(0x300, &[1, 3, 3, 4]);
    let high = |runs: Runs| runs.bytes(0x200, &[0x80]).bytes(0x300, &[1]);
    vec![
        ("MCMP differs", data(bare(abc(0x300, 0x200, 4), &[op("MCMP", 0)])).run(2)),
        ("MCMP of a high byte of b", high(bare(abc(0x300, 0x200, 1), &[op("MCMP", 0)])).run(1)),
        ("MCMP of a high byte of a", high(bare(abc(0x200, 0x300, 1), &[op("MCMP", 0)])).run(1)),
        ("MCHR finds a high byte", high(bare(abc(0x200, 0x180, 9), &[op("MCHR", 0)])).run(1)),
        ("MSET with c = 2^16", bare(abc(0x200, 5, 1 << 16), &[op("MSET", 0)]).run(2)),
        ("MCMP with c = 2^31", data(bare(abc(0x200, 0x300, 1 << 31), &[op("MCMP", 0)])).run(1)),
        ("MCMP of equals", data(bare(abc(0x302, 0x202, 1), &[op("MCMP", 0)])).run(1).run(1)),
        ("MCMP with c = 0", bare(nowhere.clone(), &[op("MCMP", 0)]).run(1)),
        ("MCHR with c = 0", bare(nowhere.clone(), &[op("MCHR", 0)]).run(1)),
        ("MCPY with c = 0", bare(nowhere, &[op("MCPY", 0)]).run(1)),
        ("MCHR finds b's low byte", data(bare(abc(0x200, 0xff03, 9), &[op("MCHR", 0)])).run(3)),
        ("MCHR finds nothing", data(bare(abc(0x200, 9, 2), &[op("MCHR", 0)])).run(3)),
        ("MSET", bare(abc(0x200, 0x12ab, 2), &[op("MSET", 0)]).run(2).run(1)),
        ("MCPY overlapping", data(bare(abc(0x201, 0x200, 3), &[op("MCPY", 0)])).run(4)),
        ("MSET over itself", bare(abc(PROGRAM, 0x9b, 9), &[op("MSET", 0)]).run(2)),
        ("MCPY from beyond", bare(abc(0x200, 0xfff, 5), &[op("MCPY", 0)]).run(3)),
        ("MCPY b before a", bare(abc(0x2001, 0x1003, 5), &[op("MCPY", 0)]).run(1)),
        (
            "a key within a block",
            bare(open(abc(0x200, 1, 5)), &[op("MSET", 0)]).run_keys(3, &[(3, 1)]),
        ),
    ]
}

fn system() -> Vec<(&'static str, Runs)> {
    let b = |b: u32| ab(0x77, b);
    let odd = ab(0x1237, 0);
    let asked = Registers { kbchar: 65, vadr: 0x123, ..kernel() };
    vec![
        (
            "BOUT until full",
            bare(b(0x141), &[op("BOUT", 0), op("BOUT", 0)]).console(&[0]).run(1).run(1),
        ),
        (
            "BOUT twice",
            bare(b(0x41), &[op("BOUT", 0), op("LBI", 0x42), op("BOUT", 0)]).console(&[7; 3]).run(3),
        ),
        ("BOUT without a console", bare(b(0x141), &[op("BOUT", 0)]).run(1)),
        ("BIN twice", bare(asked.clone(), &[op("BIN", 0), op("BIN", 0)]).run(1).run(1)),
        ("LVAD twice", bare(asked, &[op("LVAD", 0), op("LVAD", 0)]).run(2)),
        ("CLI", bare(open(kernel()), &[op("CLI", 0), op("CLI", 0)]).run(1).run(1)),
        ("STI", bare(kernel(), &[op("STI", 0)]).run(1)),
        ("SSP drops low bits", bare(odd.clone(), &[op("SSP", 0)]).run(1)),
        ("SUSP drops low bits", bare(odd.clone(), &[op("SUSP", 0)]).run(1)),
        ("IVEC drops low bits", bare(odd, &[op("IVEC", 0)]).run(1)),
        ("MSIZ", bare(kernel(), &[op("MSIZ", 0)]).run(1)),
        ("SSP from user mode", bare(open(Registers { a: 8, ..user() }), &[op("SSP", 0)]).run(1)),
        ("0xb3", bare(kernel(), &[0xb3]).run(1)),
    ]
}
