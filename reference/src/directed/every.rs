//! Each of the 137 legal opcodes and the 46 that the mode with doubles adds, with a
//! near and a far operand, in user mode, with paging, without rights; each illegal
//! byte in both modes; each opcode that can fault.

use super::{bare, kernel, open, paged, user, Named, HANDLER};
use crate::case::Runs;
use crate::double::NAN;
use crate::opcodes::decode::{decode_in, Base, Cond, Op, Source};
use crate::opcodes::floats::{Float, FloatCond};
use crate::opcodes::kinds::{base_of, can_fault_in_kernel, reads, takes_imm, writes};
use crate::opcodes::sets::{is_floating, is_privileged, name_of};
use crate::opcodes::sets::{ILLEGAL, ILLEGAL_WITH_DOUBLES, LEGAL_WITH_DOUBLES, PRIVILEGED};
use crate::types::{Cause, Registers};
use crate::words::instruction;
use crate::worked::op;

/// An operand of more than 16 bits, negative and odd.
pub const FAR: i32 = -0x5_2345;
/// Where data stands in page 3, for accesses and for sp.
pub const DATA: u32 = 0x3240;

/// Registers that lead every opcode's access into the pattern, after an access
/// that was refused.
fn ready() -> Registers {
    let cause = Cause::TableAbsent;
    Registers { a: 0x241, b: 0x253, c: 3, sp: 0x260, kbchar: 5, vadr: 6, cause, ..kernel() }
}

/// With item 7's mode, f and g as they suit an opcode. Of a floating one they are
/// no singles, and CDU of f passes.
fn suited(code: u8, regs: Registers) -> Registers {
    let mode = is_floating(code);
    let [f, g] = if mode { FLOATS.map(f64::to_bits) } else { [5, 6] };
    Registers { mode, f, g, ..regs }
}

pub const FLOATS: [f64; 2] = [-0.7, 1.3];

fn pattern() -> Vec<u8> {
    (0..96).map(|nth: u32| (nth * 37 + 0x85) as u8).collect()
}

fn legal_with(holds: fn(Op) -> bool) -> impl Iterator<Item = (u8, Op)> {
    let decoded = |code: &u8| decode_in(*code, true).map(|op| (*code, op));
    LEGAL_WITH_DOUBLES.iter().filter_map(decoded).filter(move |(_, op)| holds(*op))
}

fn named(text: &str, code: u8, runs: Runs) -> Named {
    (format!("{text} {}", name_of(code)), runs.into())
}

pub fn cases() -> Vec<Named> {
    let mut cases = near();
    cases.extend(every_fault());
    cases.extend(illegal());
    cases.extend(legal_with(takes_imm).map(|(code, op)| named("far", code, far(code, op))));
    for code in LEGAL_WITH_DOUBLES.iter().filter(|code| !is_privileged(**code)) {
        cases.push(named("user, paged", *code, in_page_3(*code, 0x3007)));
    }
    let memory = legal_with(|op| reads(op) || writes(op));
    cases.extend(memory.map(|(code, _)| named("without right", code, in_page_3(code, 0x3003))));
    cases
}

/// Every legal opcode with a small operand, those of the old mode in the old mode;
/// every privileged one from user mode.
fn near() -> Vec<Named> {
    let one = |regs: Registers, code: u8| {
        bare(regs, &[instruction(code, 12)])
            .bytes(0x110, &pattern()[..8])
            .bytes(0x230, &pattern())
            .console(&[9; 2])
            .run(1)
    };
    let mut cases: Vec<Named> = Vec::new();
    for code in LEGAL_WITH_DOUBLES.iter() {
        cases.push(named("opcode", *code, one(suited(*code, ready()), *code)));
    }
    for code in PRIVILEGED.iter() {
        let regs = Registers { user: true, ..open(ready()) };
        cases.push(named("user", *code, one(regs, *code)));
        cases.push(named("with doubles", *code, privileged_with_doubles(*code)));
    }
    cases
}

/// A privileged opcode in kernel mode with doubles, with something to change.
fn privileged_with_doubles(code: u8) -> Runs {
    let iena = ["CLI", "IDLE"].contains(&name_of(code));
    let regs = Registers { a: 0x253, b: 0x241, iena, mode: true, f: 5, g: 6, ..ready() };
    bare(regs, &[instruction(code, 0)])
        .bytes(0x230, &pattern())
        .console(&[9; 2])
        .entry(9, 0, true, true)
        .run(1)
}

/// The illegal bytes of both of item 7's modes.
fn illegal() -> Vec<Named> {
    let with_doubles = |regs: Registers| Registers { mode: true, f: 1, g: 2, ..regs };
    let mut cases = illegal_in(&ILLEGAL, [("kernel", kernel()), ("user", user())]);
    let modes = [("kernel, doubles", kernel()), ("user, doubles", user())];
    let modes = modes.map(|(mode, regs)| (mode, with_doubles(regs)));
    cases.extend(illegal_in(&ILLEGAL_WITH_DOUBLES, modes));
    cases
}

/// Bytes in a row, in kernel and user mode; the handler adds up the codes.
fn illegal_in(codes: &[u8], modes: [(&str, Registers); 2]) -> Vec<Named> {
    let mut cases: Vec<Named> = Vec::new();
    for (mode, regs) in modes {
        for (nth, codes) in codes.chunks(60).enumerate() {
            let words: Vec<u32> = codes.iter().map(|code| instruction(*code, 0x77)).collect();
            let runs = bare(open(regs.clone()), &words);
            let runs = runs.words(HANDLER, &[op("ADDL", 0), op("RTI", 0)]);
            let steps = 3 * codes.len() as u64;
            cases.push((format!("illegal {nth}, {mode}"), runs.run(steps).into()));
        }
    }
    cases
}

/// In user mode, with doubles, with a, b, f and sp such that every legal opcode
/// that can fault does; the handler returns to the next.
fn every_fault() -> Vec<Named> {
    let codes: Vec<u8> = legal_with(can_fault_in_kernel).map(|(code, _)| code).collect();
    let regs = Registers { a: 0xffff_0000, c: 3, sp: 0x1000_0000, ..open(user()) };
    let regs = Registers { mode: true, f: NAN, ..regs };
    let regs = Registers { usp: regs.sp, ..regs };
    let mut cases = Vec::new();
    for (nth, codes) in codes.chunks(48).enumerate() {
        let words: Vec<u32> = codes.iter().map(|code| instruction(*code, beyond(*code))).collect();
        let mut runs = bare(regs.clone(), &words).words(HANDLER, &[op("RTI", 0)]);
        for _ in codes {
            runs = runs.run(2);
        }
        cases.push((format!("faults {nth}"), runs.into()));
    }
    cases
}

/// An operand beyond memory, or 0 to divide by.
fn beyond(code: u8) -> u32 {
    match decode_in(code, true) {
        Some(Op::Arith(_, Source::Immediate)) => 0,
        _ => 0x7f_f000,
    }
}

/// With a far operand: what reaches memory by it faults, branches are taken.
fn far(code: u8, op: Op) -> Runs {
    let (a, b) = match op {
        Op::Branch(Cond::Eq) => (5, 5),
        Op::Branch(Cond::Zero | Cond::Lt | Cond::Ltu) => (0, 1),
        Op::Branch(_) => (9, 5),
        _ => (0x4001_0240, 0x250),
    };
    let (f, g): (f64, f64) = match op {
        Op::Float(Float::Branch(FloatCond::Zero)) => (-0.0, 1.0),
        Op::Float(Float::Branch(FloatCond::Eq)) => (2.5, 2.5),
        Op::Float(Float::Branch(FloatCond::Lt)) => (-2.5, 2.5),
        _ => (9.5, 2.5),
    };
    let (f, g, mode) = (f.to_bits(), g.to_bits(), is_floating(code));
    let regs = Registers { a, b, sp: 0x260, f, g, mode, ..kernel() };
    bare(regs, &[instruction(code, FAR as u32)]).bytes(0x230, &pattern()).run(1)
}

/// In user mode with paging and doubles; what reaches memory does so in page 3,
/// whose word is given. A fault is delivered.
fn in_page_3(code: u8, word: u32) -> Runs {
    let addresses = Registers { a: DATA, b: DATA + 0x20, c: 3, sp: DATA + 0x40, ..user() };
    let imm = match decode_in(code, true).and_then(base_of) {
        Some(Base::Pc) => DATA - 0x104,
        _ => 4,
    };
    let regs = Registers { mode: true, count: 40, ..suited(code, open(addresses)) };
    paged(regs, &[instruction(code, imm)])
        .words(0x200c, &[word])
        .bytes(DATA as usize, &pattern())
        .run(1)
}
