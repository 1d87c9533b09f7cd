//! The marks of keys and timer: events while interrupts are masked, two at
//! once, marks that a record is given with, what keeps a mark and what clears
//! it. Document 02, item 1.

use super::{bare, kernel, open, paged, user, HANDLER};
use crate::case::Runs;
use crate::types::{Registers, Stop, MAX_BUDGET, NO_KEY};
use crate::worked::op;

/// A code without a line in 000.
const ILLEGAL: u32 = 0xff;
/// A key in the first step.
const KEY: [(u64, u8); 1] = [(1, 65)];

pub fn cases() -> Vec<(&'static str, Runs)> {
    [masked(), two(), given(), waits(), kept(), stops(), handed_on(), bursts()].concat()
}

/// No key unread, interrupts masked.
fn quiet() -> Registers {
    Registers { kbchar: NO_KEY, ..kernel() }
}

/// The timer fires in the first step.
fn timed(regs: Registers) -> Registers {
    Registers { timer: 4, timeout: 4, ..regs }
}

fn key_marked(regs: Registers) -> Registers {
    Registers { key_pending: true, ..regs }
}

fn timer_marked(regs: Registers) -> Registers {
    Registers { timer_pending: true, ..regs }
}

fn both_marked(regs: Registers) -> Registers {
    key_marked(timer_marked(regs))
}

/// A program of opcodes without operand, and a handler that returns at once.
fn program(regs: Registers, names: &[&str]) -> Runs {
    let words: Vec<u32> = names.iter().map(|name| op(name, 0)).collect();
    bare(regs, &words).words(HANDLER, &[op("RTI", 0)])
}

/// What comes while iena = 0 is due once iena is 1, in the step after.
fn masked() -> Vec<(&'static str, Runs)> {
    let sti = ["NOP", "STI", "NOP"];
    let frame = |code: u32| program(quiet(), &["RTI"]).words(0xf00, &[code, 0, 0x220, 0]);
    let keys = [(1, 65), (2, 66)];
    let polled =
        program(quiet(), &["BIN", "STI", "NOP"]).words(HANDLER, &[op("BIN", 0), op("RTI", 0)]);
    let late = program(open(quiet()), &["CLI", "NOP", "STI", "NOP"]);
    vec![
        ("a masked key, then STI", program(quiet(), &sti).run_keys(2, &KEY).run_keys(1, &KEY)),
        ("a masked timer, then STI", program(timed(quiet()), &sti).run(2).run(1)),
        ("a key in STI's step", program(quiet(), &["STI", "NOP"]).run_keys(2, &KEY)),
        ("a timer event in STI's step", program(timed(quiet()), &["STI", "NOP"]).run(2)),
        ("a key in CLI's step", program(open(quiet()), &["CLI"]).run_keys(1, &KEY)),
        ("a key after CLI", late.run_keys(2, &[(2, 65)]).run_keys(2, &[(2, 65)])),
        ("a masked key, then RTI", frame(4).run_keys(1, &KEY).run_keys(1, &KEY)),
        ("a masked key, then RTI to user mode", frame(20).run_keys(2, &KEY)),
        (
            "two masked keys",
            program(quiet(), &["NOP", "NOP", "STI", "NOP"]).run_keys(2, &keys).run_keys(4, &keys),
        ),
        ("a masked key polled by BIN", polled.run_keys(3, &KEY).run_keys(3, &KEY)),
    ]
}

/// Both events, or both marks, in one step: the key's first, then the timer's.
fn two() -> Vec<(&'static str, Runs)> {
    let nop = |regs: Registers| program(regs, &["NOP"]);
    let each = |runs: Runs| runs.run_keys(1, &KEY).run_keys(1, &KEY).run_keys(1, &KEY);
    let nested = nop(both_marked(open(quiet()))).words(HANDLER, &[op("STI", 0), op("NOP", 0)]);
    vec![
        ("key and timer in one step", each(nop(timed(open(quiet()))))),
        (
            "key and timer in one masked step",
            each(program(timed(quiet()), &["STI", "NOP"])).run_keys(1, &KEY),
        ),
        ("both marks", nop(both_marked(open(quiet()))).run(1).run(1).run(1).run(1)),
        ("the timer's mark in the key's handler", nested.run(2).run(1)),
        ("a key beside the timer's mark", each(nop(timer_marked(open(quiet()))))),
        ("the timer beside the key's mark", nop(key_marked(timed(open(quiet())))).run(1).run(2)),
        ("a key beside its own mark", each(nop(key_marked(open(quiet()))))),
        ("the timer beside its own mark", nop(timer_marked(timed(open(quiet())))).run(1).run(2)),
        ("both events beside both marks", nop(both_marked(timed(quiet()))).run_keys(1, &KEY)),
    ]
}

/// Marks that stand in the given record: due without an event.
fn given() -> Vec<(&'static str, Runs)> {
    let still = Registers { timer: 7, ..open(quiet()) };
    let nop = |regs: Registers| program(regs, &["NOP"]).run(1);
    let fault = bare(key_marked(open(quiet())), &[ILLEGAL]).words(HANDLER, &[op("RTI", 0)]);
    let beyond = Registers { pc: 0x1000, ..timer_marked(open(quiet())) };
    vec![
        ("the key's mark given", nop(key_marked(still.clone()))),
        ("the timer's mark given", nop(timer_marked(still))),
        ("the key's mark given in user mode", nop(key_marked(open(user())))),
        ("the timer's mark given in user mode", nop(timer_marked(open(user())))),
        ("both marks given, masked", nop(both_marked(quiet()))),
        ("a mark before a fault", fault.run(1).run(2)),
        ("a mark before a fetch fault", bare(beyond, &[]).run(1)),
    ]
}

/// Waiting ends where something is due, and only there.
fn waits() -> Vec<(&'static str, Runs)> {
    let waiting = |regs: Registers| program(Registers { waiting: true, ..regs }, &["NOP"]);
    let idle = program(key_marked(quiet()), &["STI", "IDLE", "NOP"]);
    vec![
        ("waiting masked, both marks", waiting(both_marked(quiet())).run(3)),
        ("waiting and the key's mark", waiting(key_marked(open(quiet()))).run(1)),
        ("waiting and the timer's mark", waiting(timer_marked(open(quiet()))).run(1)),
        ("IDLE masked, a mark", program(key_marked(quiet()), &["IDLE", "NOP"]).run(2)),
        ("STI and IDLE, a mark", idle.run(2).run(2).run(5)),
    ]
}

/// Instructions that clear no mark.
fn kept() -> Vec<(&'static str, Runs)> {
    let stopping = Registers { timer: 3, timeout: 9, ..timer_marked(quiet()) };
    vec![
        ("TIME 0 keeps the timer's mark", program(stopping, &["TIME", "STI", "NOP"]).run(1).run(2)),
        ("BIN keeps the key's mark", program(key_marked(quiet()), &["BIN"]).run(1)),
        ("CLI keeps the marks", program(both_marked(quiet()), &["CLI"]).run(1)),
        ("HALT keeps the marks", program(both_marked(quiet()), &["HALT"]).run(1).run(1)),
    ]
}

/// Stops with 2 and 3 keep the marks, those of the step's events too.
fn stops() -> Vec<(&'static str, Runs)> {
    let lost = Registers { sp: 0, waiting: true, ..both_marked(open(quiet())) };
    let second = Registers { sp: 8, ..timer_marked(open(quiet())) };
    let event = Registers { sp: 0, ..timed(open(quiet())) };
    let no_kernel_stack = Registers { ksp: 0, ..key_marked(open(user())) };
    let across = Registers { sp: 0x3008, ..timer_marked(open(quiet())) };
    let beyond = Registers { pc: 0x1000, ..timer_marked(quiet()) };
    vec![
        ("stop 3 keeps both marks", bare(lost, &[]).run(1).run_keys(1, &KEY)),
        ("stop 3 at the second slot keeps the mark", bare(second, &[]).run(1)),
        ("stop 3 keeps a timer event", bare(event, &[]).run(1)),
        ("stop 3 in user mode keeps the mark", bare(no_kernel_stack, &[]).run(1)),
        ("stop 3 after a walk keeps the mark", paged(across, &[]).words(0x2008, &[0x2005]).run(1)),
        ("stop 2 keeps both marks", bare(both_marked(quiet()), &[ILLEGAL]).run(1).run(1)),
        ("stop 2 at TRAP keeps the key's mark", program(key_marked(user()), &["TRAP"]).run(1)),
        ("stop 2 at a fetch keeps the timer's mark", bare(beyond, &[]).run(1)),
        ("stop 2 keeps the step's events", bare(timed(quiet()), &[ILLEGAL]).run_keys(1, &KEY)),
    ]
}

/// Marks go from run to run in the record, whatever runs come between.
fn handed_on() -> Vec<(&'static str, Runs)> {
    let each = program(quiet(), &["NOP", "STI", "NOP"]);
    let held = program(both_marked(open(quiet())), &["NOP"]);
    let halted = Registers { stop: Stop::Halted, ..both_marked(open(quiet())) };
    vec![
        ("a mark is handed on", each.run_keys(1, &KEY).run_keys(1, &KEY).run_keys(1, &KEY)),
        ("marks in runs without steps", held.run(MAX_BUDGET + 1).run(0).run(1)),
        ("marks of a stopped machine", program(halted, &["NOP"]).run(3)),
    ]
}

/// Many steps between the event and the step in which STI runs.
fn bursts() -> Vec<(&'static str, Runs)> {
    let countdown = [op("LI", 20), op("SUBI", 1), op("BNZ", -8), op("STI", 0), op("NOP", 0)];
    let ticking = Registers { timeout: 9, ..quiet() };
    let copied = Registers { a: 0x200, b: 0x300, c: 2, ..quiet() };
    vec![
        ("a key in a masked burst", bare(quiet(), &countdown).run_keys(100, &[(5, 65)])),
        ("timer events in a masked burst", bare(ticking, &countdown).run(100)),
        ("both marks in a masked burst", bare(both_marked(quiet()), &[op("JMP", -4)]).run(50)),
        (
            "a masked key between two bytes",
            program(copied, &["MCPY", "STI", "NOP"])
                .run_keys(2, &[(2, 65)])
                .run_keys(3, &[(2, 65)]),
        ),
    ]
}
