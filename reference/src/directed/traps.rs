//! Traps, stops and faults.

use super::{bare, kernel, open, paged, user};
use crate::case::Runs;
use crate::types::Registers;
use crate::worked::op;

/// A code without a line in 000.
const ILLEGAL: u32 = 0xff;

pub fn cases() -> Vec<(&'static str, Runs)> {
    [stops(), frames(), returns(), fetches()].concat()
}

fn stops() -> Vec<(&'static str, Runs)> {
    let bad_a = Registers { a: 0x1235, ..kernel() };
    let lost = Registers { waiting: true, sp: 0, ..open(kernel()) };
    let clocked = Registers { timeout: 5, timer: 2, ..kernel() };
    let no_stack = Registers { sp: 0, ..open(bad_a.clone()) };
    let no_kernel_stack = Registers { ksp: 0, ..open(user()) };
    vec![
        ("stop 3 ends waiting", bare(lost, &[]).run_keys(1, &[(1, 65)])),
        ("stop 2 keeps the clock", bare(clocked, &[ILLEGAL]).run_keys(1, &[(1, 65)])),
        ("stop 2 keeps vadr", bare(bad_a, &[op("LX", 0)]).run(2)),
        ("stop 3 keeps the fault's vadr", bare(no_stack, &[op("LX", 0)]).run(1)),
        ("stop 3 leaves the program's state", bare(no_kernel_stack, &[op("TRAP", 0)]).run(1)),
        ("stop 2 in user mode", bare(user(), &[op("TRAP", 0)]).run(1)),
        ("halt", bare(kernel(), &[op("HALT", -1)]).run(5).run(1)),
    ]
}

fn frames() -> Vec<(&'static str, Runs)> {
    let block = Registers { a: 0x200, b: 0x1000, c: 2, ..open(kernel()) };
    let at_8 = Registers { sp: 8, ..open(kernel()) };
    let wraps = paged(at_8.clone(), &[op("TRAP", 0)])
        .words(0x1ffc, &[0x2007])
        .words(0x2ffc, &[0x3007])
        .run(1);
    let across = Registers { sp: 0x3008, ..open(kernel()) };
    let half = paged(Registers { sp: 0x3008, ..open(kernel()) }, &[op("TRAP", 0)]);
    let timed = Registers { timer: 3, timeout: 3, ..open(user()) };
    vec![
        ("block fault's pc", bare(block, &[op("MCPY", 0)]).run(1)),
        ("FINST's pc", bare(open(kernel()), &[ILLEGAL]).run(1)),
        ("FPRIV's pc", bare(open(user()), &[op("BIN", 0)]).run(1)),
        ("TRAP's pc", bare(open(user()), &[op("TRAP", 0)]).run(1)),
        (
            "slots of four bytes",
            bare(open(kernel()), &[op("TRAP", 0)]).bytes(0xee8, &[0xee; 24]).run(1),
        ),
        ("second slot refused", bare(at_8, &[op("TRAP", 0)]).bytes(0, &[0xee; 8]).run(1)),
        ("frame over address 0", wraps),
        ("four walks in a step", walks(op("LX", 0))),
        ("five walks in a step", walks(op("MCPY", 0))),
        ("frame over two pages", paged(across, &[op("TRAP", 0)]).run(1)),
        ("second slot refused after a walk", half.words(0x2008, &[0x2005]).run(1)),
        (
            "frame on a page without U",
            paged(open(user()), &[op("TRAP", 0)])
                .words(0x2000, &[3])
                .entry(0, 0, true, false)
                .run(1),
        ),
        (
            "RTI from user mode, no stack",
            bare(open(Registers { sp: 0x1000, ..user() }), &[op("RTI", 0)]).run(1),
        ),
        (
            "PDIR from user mode, beyond",
            bare(open(Registers { a: 0x1000, ..user() }), &[op("PDIR", 0)]).run(1),
        ),
        (
            "FRPAGE in kernel mode",
            paged(open(Registers { a: 0x5006, ..kernel() }), &[op("LX", 0)]).run(1),
        ),
        (
            "FRPAGE in user mode",
            paged(open(Registers { a: 0x5006, ..user() }), &[op("LX", 0)]).run(1),
        ),
        ("key in user mode", bare(open(user()), &[]).run_keys(1, &[(0, 9)])),
        ("timer in user mode", bare(timed, &[]).run(1)),
    ]
}

/// a's page is absent, and the frame goes on pages 5 and 4.
fn walks(word: u32) -> Runs {
    let mut runs =
        paged(Registers { a: 0x7001, b: 0x3000, c: 1, sp: 0x5008, ..open(kernel()) }, &[word]);
    runs.memory.resize(24_576, 0);
    runs.words(0x2010, &[0x4007, 0x5007]).run(1)
}

fn returns() -> Vec<(&'static str, Runs)> {
    let rti = |code: u32| bare(kernel(), &[op("RTI", 0)]).words(0xf00, &[code, 0, 0x223, 0]).run(1);
    let across = Registers { sp: 0x3ff8, ..kernel() };
    vec![
        ("RTI with 0x37", rti(0x37)),
        ("RTI with 16", rti(16)),
        ("RTI without the mark", rti(0xffff_ffef)),
        ("RTI across a page's end", paged(across, &[op("RTI", 0)]).run(1)),
    ]
}

fn fetches() -> Vec<(&'static str, Runs)> {
    let at = |pc: u32| Registers { pc, ..open(kernel()) };
    let no_user = |mut runs: Runs| {
        runs = runs.words(0x2000, &[0x0003]);
        runs.record.regs.user = true;
        runs
    };
    vec![
        ("fetch beyond memory", bare(at(0x1000), &[]).run(1)),
        ("fetch from an absent directory", paged(at(0x40_0000), &[]).run(1)),
        ("fetch from an absent page", paged(at(0x4000), &[]).run(1)),
        (
            "fetch through a directory beyond",
            paged(at(0x40_0000), &[]).words(0x1004, &[0x4007]).run(1),
        ),
        ("fetch from a frame beyond", paged(at(0x4000), &[]).words(0x2010, &[0x5007]).run(1)),
        ("fetch without user right", no_user(paged(at(0x100), &[])).run(1)),
        (
            "fetch over the last address",
            paged(at(0xffff_fffc), &[op("NOP", 0)])
                .words(0x1ffc, &[0x2007])
                .words(0x2ffc, &[0x3007])
                .words(0x3ffc, &[op("NOP", 0)])
                .run(1),
        ),
    ]
}
