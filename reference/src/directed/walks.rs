//! How many walks a run reports: what counts and what doesn't, where the count
//! starts, and runs at and above document 02's two bounds. Document 02, item 6.

use super::{bare, kernel, open, paged, user, HANDLER, PROGRAM};
use crate::case::Runs;
use crate::types::{Registers, MAX_BUDGET, PAGE};
use crate::worked::op;

pub fn cases() -> Vec<(&'static str, Runs)> {
    [many(), frames(), faults(), none(), emptied(), runs(), keys(), pages(), above()].concat()
}

fn ab(a: u32, b: u32) -> Registers {
    Registers { a, b, ..kernel() }
}

/// With b = 0 and zeros in the pages read, b stays 0: an operand is the address
/// that LBX reads and SX writes.
fn read(address: u32) -> u32 {
    op("LBX", address as i32)
}

fn write(address: u32) -> u32 {
    op("SX", address as i32)
}

/// Two further pages, 4 and 5, of which the first has the word given.
fn six_pages(regs: Registers, program: &[u32], word_of_4: u32) -> Runs {
    let mut runs = paged(regs, program);
    runs.memory.resize(24_576, 0);
    runs.words(0x2010, &[word_of_4, 0x5007])
}

/// As many in a step as its instruction can have.
fn many() -> Vec<(&'static str, Runs)> {
    let to_7 = Registers { a: 0x7001, b: 0x3000, c: 1, ..open(kernel()) };
    let by_user = Registers { user: true, ksp: 0x5008, ..to_7.clone() };
    let by_kernel = Registers { sp: 0x5008, ..to_7 };
    // The second read is on another page; both slots are on that of the first.
    let across = Registers { sp: 0x3ff8, ..open(kernel()) };
    let over_an_end = Registers { a: 0x3ffe, b: 0x3000, c: 4, ..kernel() };
    vec![
        ("five walks by MCMP in user mode", six_pages(by_user, &[op("MCMP", 0)], 0x4007).run(1)),
        ("five walks and no frame", six_pages(by_kernel, &[op("MCPY", 0)], 0x4005).run(1)),
        ("four walks by RTI", paged(across, &[op("RTI", 0)]).run(1)),
        ("MCPY over a page's end", paged(over_an_end, &[op("MCPY", 0)]).run(5)),
    ]
}

/// The slots of frames.
fn frames() -> Vec<(&'static str, Runs)> {
    let nowhere = Registers { sp: 0x7010, ..open(kernel()) };
    let timed = Registers { timer: 4, timeout: 4, sp: 0x3008, ..open(kernel()) };
    let due = Registers { key_pending: true, sp: 0x7010, ..open(kernel()) };
    let user = Registers { ksp: 0x3010, ..open(user()) };
    vec![
        ("the first slot is walked for and refused", paged(nowhere, &[op("TRAP", 0)]).run(1)),
        ("an interrupt's slots are walked for", paged(timed, &[]).run(1).run(1)),
        ("an interrupt's slot is walked for and refused", paged(due, &[]).run(1)),
        ("one walk for two slots", paged(user, &[op("TRAP", 0)]).run(1)),
    ]
}

/// Walks that end in a fault, and no others.
fn faults() -> Vec<(&'static str, Runs)> {
    let at = Registers { pc: 0x4000, ..kernel() };
    let to = Registers { ivec: 0x5000, ..open(at.clone()) };
    vec![
        ("a faulting fetch alone", paged(at, &[]).run(2)),
        ("two faulting fetches alone", paged(to, &[]).entry(0, 0, true, true).run(3)),
    ]
}

/// What is no walk.
fn none() -> Vec<(&'static str, Runs)> {
    let held = |regs: Registers, program: &[u32]| {
        paged(regs, program).entry(0, 0, true, true).entry(3, 3, true, true)
    };
    let program = [read(0x3000), write(0x3000), op("PSHA", 0), op("TRAP", 0)];
    let unpaged = [read(0x200), write(0x200), op("PSHA", 0), read(0x7000)];
    vec![
        ("hits alone", held(open(kernel()), &program).run(4)),
        ("no walks with paging off", bare(open(kernel()), &unpaged).run(4)),
        ("PDIR's own fault is no walk", held(open(ab(0x4000, 0)), &[op("PDIR", 0)]).run(1)),
        (
            "PDIR's own fault with paging off",
            bare(open(ab(0x1000, 0)), &[op("PDIR", 0), read(0x200)]).run(1),
        ),
        ("waiting walks nowhere", paged(Registers { waiting: true, ..kernel() }, &[]).run(3)),
    ]
}

/// The buffer is emptied, and the count goes on.
fn emptied() -> Vec<(&'static str, Runs)> {
    let thrice = |name: &str| [read(0x3000), op(name, 0), read(0x3000), op(name, 0), read(0x3000)];
    let off = [op("LI", 0), op("SPAG", 0), read(0x3000)];
    let on = [op("LI", 1), op("SPAG", 0), read(0x3000)];
    let handled = |runs: Runs| runs.words(HANDLER, &[op("RTI", 0)]);
    let refused = [read(0x3000), op("PDIR", 0), read(0x3000)];
    vec![
        ("PDIR amid walks", paged(ab(0x1000, 0), &thrice("PDIR")).run(6)),
        ("SPAG amid walks", paged(ab(1, 0), &thrice("SPAG")).run(6)),
        (
            "SPAG off and on amid walks",
            paged(kernel(), &[&[read(0x3000)], &off[..], &on].concat()).run(8),
        ),
        ("PDIR refused amid walks", handled(paged(open(ab(0x4000, 0)), &refused)).run(4)),
    ]
}

/// Each run counts from 0, one without steps too.
fn runs() -> Vec<(&'static str, Runs)> {
    let program = [read(0x3000), write(0x3000), write(0x2800), op("HALT", 0)];
    let refused = paged(kernel(), &program).run(1).run(MAX_BUDGET + 1).run(1);
    vec![
        ("each run counts from 0", paged(kernel(), &program).run(1).run(2).run(1)),
        ("runs without steps after walks", refused.run(0).run(2).run(1)),
        (
            "a run refused for its keys",
            paged(kernel(), &program).run(1).run_keys(1, &[(2, 0), (1, 0)]),
        ),
    ]
}

/// A key is taken, and the count goes on.
fn keys() -> Vec<(&'static str, Runs)> {
    let program = [read(0x3000), write(0x3000), write(0x2800), op("HALT", 0)];
    let handled = paged(open(kernel()), &program).words(HANDLER, &[op("RTI", 0)]);
    vec![
        ("keys amid walks", handled.run_keys(9, &[(2, 65), (5, 66)])),
        ("masked keys amid walks", paged(kernel(), &program).run_keys(4, &[(2, 65), (3, 66)])),
    ]
}

/// So many pages beside the program's own, each by a word of its own to the
/// same frame.
fn aliases(count: u32, program: &[u32]) -> Runs {
    let words: Vec<u32> = (0..count).map(|_| 0x3007).collect();
    paged(kernel(), program).words(0x2004, &words)
}

/// So many pages are read and then written, the program's own too.
fn read_then_written(count: u32) -> Runs {
    let each = |access: fn(u32) -> u32| (1..=count).map(move |page| access(PAGE * page));
    let program: Vec<u32> = each(read).chain(each(write)).chain([write(0xc00)]).collect();
    aliases(count, &program).run(u64::from(2 * count) + 2)
}

/// Twice the pages entered, and more where 64 are not enough. The last goes over
/// 71 pages in turn.
fn pages() -> Vec<(&'static str, Runs)> {
    let mut turns: Vec<u32> = (1..=70).map(|page| read(PAGE * page)).collect();
    turns.push(op("JMP", -4 * 71));
    vec![
        ("a page fetched, then written", paged(kernel(), &[write(0xc00)]).run(2)),
        ("64 pages read, then written", read_then_written(63)),
        ("65 pages read, then written", read_then_written(64)),
        ("more than 65,535 walks", aliases(70, &turns).run(66_000)),
    ]
}

/// Above the second bound's number, since something that it asks for is lacking;
/// PDIR, SPAG and 65 pages are among the cases above.
fn above() -> Vec<(&'static str, Runs)> {
    let program = [read(0x3000), write(0x3000), write(0xc00)];
    let mut given = paged(kernel(), &program);
    for page in 0..63 {
        given = given.entry(0x100 + page, 3, true, true);
    }
    vec![
        ("63 entries given, three walks for a page", given.run(4)),
        ("a word stored into", opened()),
    ]
}

/// Page 3 lacks U. It is read and written, its word, seen through page 2, gets
/// U, and a user reads it: three walks for it, and two for each other page.
fn opened() -> Runs {
    let program =
        [read(0x3000), write(0x3000), read(0x2800), write(0x200c), write(0xc00), op("RTI", 0)];
    let next = PROGRAM + 4 * program.len() as u32;
    paged(ab(0x3067, 0), &[&program[..], &[read(0x3004)]].concat())
        .words(0x200c, &[0x3003])
        .words(0xf00, &[16, 0, next, 0])
        .run(7)
}
