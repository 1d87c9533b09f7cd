//! Keys, timer, waiting, and the step count's edges; `marks.rs` has what comes
//! of an event.

use super::{bare, kernel, open};
use crate::case::Runs;
use crate::types::{Registers, NO_KEY};
use crate::worked::op;

const MAX: u32 = u32::MAX;

pub fn cases() -> Vec<(&'static str, Runs)> {
    [keys(), timers(), waits()].concat()
}

fn nops(regs: Registers) -> Runs {
    bare(regs, &[op("NOP", 0); 8])
}

fn keys() -> Vec<(&'static str, Runs)> {
    let quiet = Registers { kbchar: NO_KEY, ..kernel() };
    let unread = [(0, 1), (0, 2), (1, 3)];
    let taken = Registers { keys: 1, count: 10, ..quiet.clone() };
    let late = Registers { count: (1 << 32) + 5, ..quiet.clone() };
    vec![
        ("key by the raised count", nops(quiet.clone()).run_keys(1, &[(1, 65)])),
        ("key not yet due", nops(quiet.clone()).run_keys(2, &[(3, 65)])),
        ("key 0xff", nops(quiet.clone()).run_keys(1, &[(1, 0xff)])),
        ("key due in the high half alone", nops(quiet.clone()).run_keys(2, &[((1 << 32) + 1, 65)])),
        ("key due beyond 2^32", nops(late.clone()).run_keys(1, &[((1 << 32) + 6, 65)])),
        ("key due though its low half is larger", nops(late).run_keys(1, &[(9, 65)])),
        ("key of step 2^63", nops(quiet.clone()).run_keys(2, &[(1 << 63, 65)])),
        ("one key a step", nops(quiet).run_keys(2, &unread)),
        (
            "keys go on in the next run",
            nops(taken)
                .run_keys(1, &[(2, 7), (3, 8), (4, 9)])
                .run_keys(1, &[(2, 7), (3, 8), (4, 9)]),
        ),
    ]
}

fn timers() -> Vec<(&'static str, Runs)> {
    let timer = |timer: u32, timeout: u32| Registers { timer, timeout, ..open(kernel()) };
    let restart = Registers { a: 3, ..timer(5, 9) };
    vec![
        ("timer reaches timeout", nops(timer(3, 4)).run(1)),
        ("timer passes timeout", nops(timer(4, 4)).run(1)),
        ("key before timer", nops(timer(4, 4)).run_keys(1, &[(1, 65)])),
        ("timeout 0 keeps the timer", nops(timer(7, 0)).run(2)),
        ("timer at 2^32 - 1", nops(timer(MAX, MAX)).run(1)),
        ("timer at 2^32 - 2", nops(timer(MAX - 1, MAX)).run(1)),
        ("timer above timeout", nops(timer(9, 4)).run(1)),
        ("timer of 2^31", nops(timer(1 << 31, 5)).run(1)),
        ("timeout of 2^31", nops(timer(5, 1 << 31)).run(1)),
        (
            "TIME keeps the timer",
            bare(restart.clone(), &[op("TIME", 0), op("NOP", 0)]).run(1).run(1),
        ),
        ("TIME with an operand", bare(restart.clone(), &[op("TIME", 1)]).run(1)),
        ("TIME with a low byte of 0", bare(restart, &[op("TIME", 0x100)]).run(1)),
    ]
}

fn waits() -> Vec<(&'static str, Runs)> {
    let waiting = |regs: Registers| Registers { waiting: true, ..regs };
    let late = Registers { count: (1 << 63) - 1, ..kernel() };
    let idle = [op("IDLE", 0), op("NOP", 0)];
    vec![
        (
            "waiting with iena = 0",
            nops(Registers { timeout: 3, ..waiting(kernel()) }).run_keys(6, &[(2, 5)]),
        ),
        ("IDLE with iena = 0", bare(kernel(), &idle).run(1)),
        ("IDLE until a key", bare(open(kernel()), &idle).run(2).run_keys(1, &[(3, 66)])),
        (
            "waiting ends by the timer",
            nops(Registers { timeout: 1, ..waiting(open(kernel())) }).run(1).run(1),
        ),
        ("the count passes 2^63", nops(late).run(2).run(1)),
        (
            "CYC of bit 31",
            bare(Registers { count: 0x8000_0000, ..kernel() }, &[op("CYC", 0)]).run(1),
        ),
        ("CYC", bare(Registers { count: 0x1_2345_6789, ..kernel() }, &[op("CYC", 0)]).run(1)),
    ]
}
