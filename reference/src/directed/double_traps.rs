//! Doubles: the mode, FARITH of CDI and CDU, traps and interrupts between
//! floating instructions, immediates, f and g in the old mode.

use super::doubles::{code, ready, with_fg};
use super::{bare, kernel, open, Named, HANDLER};
use crate::case::Runs;
use crate::double::{NAN, SIGN};
use crate::opcodes::sets::FLOATING;
use crate::types::{Registers, Stop};
use crate::words::instruction;
use crate::worked::op;

/// Patterns that no operation gives.
const F: u64 = 0xfff4_5678_9abc_def0;
const G: u64 = 0x8000_0000_0000_0001;

/// f and g, in the old mode.
fn old(regs: Registers) -> Registers {
    Registers { f: F, g: G, mode: false, ..regs }
}

fn refused() -> Vec<(&'static str, Runs)> {
    let of = |f: f64| Registers { a: 0x77, ..with_fg(f, 3.5) };
    let masked = |f: f64| Registers { iena: false, ..of(f) };
    let by_user = Registers { user: true, ..of(-1.0) };
    let nan = Registers { f: NAN, ..of(0.0) };
    let no_frame = Registers { sp: 0, ..of(4294967296.0) };
    vec![
        ("CDI of 2^31", bare(of(2147483648.0), &[op("CDI", 0)]).run(1)),
        ("CDI of 2^31, masked", bare(masked(2147483648.0), &[op("CDI", 0)]).run(1)),
        ("CDU of -1, user", bare(by_user, &[op("CDU", 0)]).run(1)),
        ("CDU of 2^32, no frame", bare(no_frame, &[op("CDU", 0)]).run(1)),
        ("CDI of a NaN", bare(nan.clone(), &[op("CDI", 0)]).run(1)),
        ("CDU of a NaN, masked", bare(Registers { iena: false, ..nan }, &[op("CDU", 0)]).run(1)),
        ("CDU of an infinity, masked", bare(masked(f64::INFINITY), &[op("CDU", 0)]).run(1)),
        ("DIVF by zero", bare(with_fg(-1.0, 0.0), &[op("DIVF", 0)]).run(1)),
        ("DIVF of zeros, masked", {
            let regs = Registers { iena: false, ..with_fg(0.0, -0.0) };
            bare(regs, &[op("DIVF", 0), op("GEF", 0)]).run(1).run(1)
        }),
    ]
}

/// A loop of floating instructions under a timer.
fn interrupts() -> Vec<(&'static str, Runs)> {
    let program =
        code(&[("ADDF", 0), ("LBAD", 0), ("MULF", 0), ("CID", 0), ("SUBF", 0), ("JMP", -24)]);
    let timed = |regs: Registers| Registers { a: 3, timeout: 3, ..regs };
    let saving = code(&[
        ("PSHF", 0),
        ("PSHG", 0),
        ("LIF", 99),
        ("LBIF", -99),
        ("MULF", 0),
        ("POPG", 0),
        ("POPF", 0),
        ("RTI", 0),
    ]);
    let kernel = || bare(timed(with_fg(0.1, 1.5)), &program);
    let user = Registers { user: true, ..timed(with_fg(0.1, 1.5)) };
    let traps = code(&[("ADDF", 0), ("TRAP", 0), ("LLD", 0x7000), ("SUBF", 0)]);
    vec![
        ("doubles under a timer", kernel().words(HANDLER, &[op("RTI", 0)]).run(40)),
        ("doubles saved by a handler", kernel().words(HANDLER, &saving).run(60).run(7)),
        ("doubles under a timer, user", bare(user, &program).words(HANDLER, &saving).run(60)),
        ("doubles under keys", {
            let keys = [(2, 65), (5, 66), (9, 67)];
            bare(with_fg(0.1, 1.5), &program).words(HANDLER, &[op("RTI", 0)]).run_keys(20, &keys)
        }),
        ("doubles kept by traps", {
            bare(with_fg(0.1, 1.5), &traps).words(HANDLER, &[op("RTI", 0)]).run(2).run(4).run(2)
        }),
        ("doubles kept by a stop with 2", {
            bare(Registers { iena: false, ..with_fg(0.1, 1.5) }, &[op("TRAP", 0)]).run(1)
        }),
        (
            "doubles kept by HALT",
            bare(with_fg(0.1, 1.5), &code(&[("ADDF", 0), ("HALT", 0)])).run(2),
        ),
    ]
}

fn modes() -> Vec<(&'static str, Runs)> {
    let plain = code(&[("LI", 5), ("LBA", 0), ("PSHA", 0), ("POPB", 0), ("DIVI", 0), ("NOP", 0)]);
    let stopped = Registers { stop: Stop::Masked, ..old(kernel()) };
    let words: Vec<u32> = FLOATING.iter().map(|code| instruction(*code, 8)).collect();
    let mut regs = old(open(kernel()));
    regs.a = 0x300;
    regs.b = 0x340;
    vec![
        ("f and g in the old mode", {
            bare(regs.clone(), &plain).words(HANDLER, &[op("RTI", 0)]).run(3).run(4)
        }),
        ("f and g in the old mode, stopped", bare(stopped, &plain).run(1)),
        ("f and g in the old mode, a budget of 0", bare(old(kernel()), &plain).run(0)),
        ("floating opcodes in the old mode", {
            bare(regs, &words).words(HANDLER, &[op("RTI", 0)]).run(92)
        }),
    ]
}

fn registers() -> Vec<(&'static str, Runs)> {
    let one = |regs: Registers, list: &[(&str, i32)]| {
        let steps = list.len() as u64;
        bare(regs, &code(list)).run(steps)
    };
    let least = -0x80_0000;
    vec![
        ("LIF and LBIF", one(ready(), &[("LIF", 0x7f_ffff), ("LBIF", least)])),
        ("LIF and LBIF of -1 and 0", one(with_fg(2.0, 2.0), &[("LIF", -1), ("LBIF", 0)])),
        ("FABS of f alone", one(with_fg(-2.0, -7.5), &[("FABS", 0)])),
        ("CEIL of -0.5", one(with_fg(-0.5, 1.0), &[("CEIL", 0)])),
        ("0.1 + 0.2", one(with_fg(0.1, 0.2), &[("ADDF", 0)])),
        ("branches to odd targets", one(with_fg(1.0, 2.0), &[("BNZF", 3), ("BLTF", 6)])),
        ("NOP with doubles", one(Registers { f: SIGN, g: 0, ..ready() }, &[("NOP", 8)])),
        ("NOP with doubles, a and b", {
            one(Registers { a: 0x953, b: 0x241, ..ready() }, &[("NOP", 8)])
        }),
        ("-0 is 0", {
            let regs = Registers { f: SIGN, g: 0, ..ready() };
            one(regs, &[("BZF", 0), ("EQF", 0)])
        }),
    ]
}

pub fn cases() -> Vec<Named> {
    super::named([refused(), interrupts(), modes(), registers()].concat()).collect()
}
