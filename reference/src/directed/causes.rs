//! The causes of refused accesses: each by fetch, read and write in both modes,
//! several at once, rights that either word lacks; what a cause is kept by and
//! what replaces it. Document 02, item 4.

use super::{bare, kernel, open, paged, user, Named, HANDLER, PROGRAM};
use crate::case::Runs;
use crate::types::{Access, Cause, Registers, MAX_BUDGET};
use crate::worked::op;

/// What is asked for with paging on, an odd half; a fetch asks two bytes below.
/// Its directory word is at DIRECTORY, its table word at TABLE.
pub const ASKED: u32 = 0x40_4006;
pub const DIRECTORY: u32 = 0x1004;
pub const TABLE: u32 = 0x2010;
/// What is asked for with paging off.
pub const BEYOND: u32 = 0x1006;
/// An older fault's vadr.
pub const OLD: u32 = 0x5557;
/// A code without a line in 000.
const ILLEGAL: u32 = 0xff;

/// Directory and table word by which a cause comes alone; with paging off none.
pub const ALONE: [(Cause, Option<[u32; 2]>); 7] = [
    (Cause::AddressBeyond, None),
    (Cause::DirectoryAbsent, Some([0x2006, 0x3007])),
    (Cause::DirectoryBeyond, Some([0x4007, 0x3007])),
    (Cause::TableAbsent, Some([0x2007, 0x3006])),
    (Cause::NoUserRight, Some([0x2007, 0x3003])),
    (Cause::NoWriteRight, Some([0x2007, 0x3005])),
    (Cause::FrameBeyond, Some([0x2007, 0x4007])),
];

pub fn cases() -> Vec<Named> {
    let listed = [entries(), instructions(), slots()].concat().into_iter();
    let listed = listed.map(|(name, runs)| (name.to_string(), runs.run(1)));
    let several = sequences().into_iter().map(|(name, runs)| (name.to_string(), runs));
    let first = [alone(), at_once(), stopped(), kept()].concat().into_iter();
    let first = first.map(|(name, runs)| (name, runs.run(1)));
    first.chain(listed).chain(several).map(|(name, runs)| (name, runs.into())).collect()
}

/// After an older fault.
fn after(cause: Cause, regs: Registers) -> Registers {
    Registers { vadr: OLD, cause, ..regs }
}

/// In a mode, interrupts on.
fn mode(in_user: bool) -> Registers {
    open(if in_user { user() } else { kernel() })
}

/// A program that makes one access.
fn asking(access: Access, regs: Registers, words: Option<[u32; 2]>) -> Runs {
    let asked = if words.is_some() { ASKED } else { BEYOND };
    let (pc, name) = match access {
        Access::Fetch => (asked - 2, "NOP"),
        Access::Read => (PROGRAM, "LXH"),
        Access::Write => (PROGRAM, "SX"),
    };
    let regs = Registers { a: asked, b: asked, ..regs };
    let program = [op(name, 0)];
    match words {
        None => bare(Registers { pc, ..regs }, &program),
        Some(words) => with_words(paged(Registers { pc, ..regs }, &program), words),
    }
}

fn with_words(runs: Runs, words: [u32; 2]) -> Runs {
    runs.words(DIRECTORY, &words[..1]).words(TABLE, &words[1..])
}

/// Each cause alone, wherever it can come; the fault is delivered.
fn alone() -> Vec<(String, Runs)> {
    let mut cases = Vec::new();
    for (cause, words) in ALONE {
        for access in Access::ALL {
            for in_user in [false, true].into_iter().filter(|user| cause.comes(access, *user)) {
                let name = format!("{cause:?} by {access:?}, user mode: {in_user}");
                cases.push((name, asking(access, mode(in_user), words)));
            }
        }
    }
    cases
}

/// Words by which several checks fail, the first of which is named; rights that
/// one of the words lacks, or both; rights that aren't asked for. With the
/// access, and whether it is in user mode.
pub const AT_ONCE: [(&str, Access, bool, [u32; 2]); 33] = {
    use Access::{Fetch, Read, Write};
    [
        ("2 and 3", Read, false, [0x4006, 0x3007]),
        ("2 and 4", Read, false, [0x2006, 0x3006]),
        ("2 and 5", Read, true, [0x2002, 0x3007]),
        ("2 and 6", Write, false, [0x2004, 0x3007]),
        ("2 and 7", Read, false, [0x2006, 0x4007]),
        ("2 and all others", Write, true, [0xffff_f000, 0]),
        ("3 and 5", Read, true, [0x4003, 0]),
        ("3 and 6", Write, false, [0x4005, 0]),
        ("3, 5 and 6", Write, true, [0x4001, 0]),
        ("4 and 5", Read, true, [0x2007, 0x3002]),
        ("4 and 5 by a fetch", Fetch, true, [0x2003, 0x3006]),
        ("4 and 6", Write, false, [0x2007, 0x3004]),
        ("4 and 7", Read, false, [0x2007, 0x4006]),
        ("4 and all after it", Write, true, [0x2001, 0xffff_f000]),
        ("5 and 6", Write, true, [0x2007, 0x3001]),
        ("5 and 7", Read, true, [0x2007, 0x4003]),
        ("5 and 7 by a fetch", Fetch, true, [0x2007, 0x4003]),
        ("5, 6 and 7", Write, true, [0x2007, 0x4001]),
        ("6 and 7", Write, false, [0x2007, 0x4005]),
        ("6 and 7 in user mode", Write, true, [0x2007, 0x4005]),
        ("U missing above", Read, true, [0x2003, 0x3007]),
        ("U missing in both words", Read, true, [0x2003, 0x3003]),
        ("U missing above, by a fetch", Fetch, true, [0x2003, 0x3007]),
        ("U missing above, by a write", Write, true, [0x2003, 0x3007]),
        ("W missing above", Write, false, [0x2005, 0x3007]),
        ("W missing above, in user mode", Write, true, [0x2005, 0x3007]),
        ("W missing in both words", Write, false, [0x2005, 0x3005]),
        ("U missing above, W below", Write, true, [0x2003, 0x3005]),
        ("W missing above, U below", Write, true, [0x2005, 0x3003]),
        ("U missing, kernel write without W", Write, false, [0x2003, 0x3001]),
        ("U missing, kernel read beyond", Read, false, [0x2003, 0x4003]),
        ("W missing, user read beyond", Read, true, [0x2005, 0x4005]),
        ("W missing, fetch beyond", Fetch, false, [0x2007, 0x4005]),
    ]
};

fn at_once() -> Vec<(String, Runs)> {
    let case = |(name, access, in_user, words): (&str, Access, bool, _)| {
        let old = after(Cause::AddressBeyond, mode(in_user));
        (format!("causes: {name}"), asking(access, old, Some(words)))
    };
    AT_ONCE.map(case).to_vec()
}

/// An older cause, unlike this one.
pub fn older(cause: Cause) -> Cause {
    Cause::ALL[1 + cause as usize % 7]
}

/// Stops with 2, interrupts being masked, and with 3 by a stack at 0, after each
/// cause by a fetch and by a write. PDIR's own fault too, with paging off and on.
fn stopped() -> Vec<(String, Runs)> {
    let masked = |regs: Registers| Registers { iena: false, ..regs };
    let no_stack = |regs: Registers| Registers { sp: 0, ksp: 0, ..regs };
    let mut cases = Vec::new();
    let mut both = |name: String, regs: Registers, make: &dyn Fn(Registers) -> Runs| {
        cases.push((format!("stop 2 after {name}"), make(masked(regs.clone()))));
        cases.push((format!("stop 3 after {name}"), make(no_stack(regs))));
    };
    for (cause, words) in ALONE {
        let regs = after(older(cause), mode(cause == Cause::NoUserRight));
        for access in [Access::Fetch, Access::Write] {
            if cause.comes(access, regs.user) {
                let make = |regs: Registers| asking(access, regs, words);
                both(format!("{cause:?} by {access:?}"), regs.clone(), &make);
            }
        }
    }
    let pdir = |regs: Registers| Registers { a: 0x4003, ..after(Cause::FrameBeyond, regs) };
    both("PDIR".to_string(), pdir(mode(false)), &|regs| paged(regs, &[op("PDIR", 0)]));
    let mut delivered = |name: &str, runs: Runs| cases.push((name.to_string(), runs));
    delivered("PDIR refused, paging on", paged(pdir(mode(false)), &[op("PDIR", 0)]));
    delivered("PDIR refused, paging off", bare(pdir(mode(false)), &[op("PDIR", 0)]));
    delivered("PDIR in user mode", bare(pdir(mode(true)), &[op("PDIR", 0)]));
    cases
}

/// The traps that have no cause, with their codes.
pub const OTHERS: [(&str, u32); 6] =
    [("FTIMER", 1), ("FKEYBD", 2), ("FPRIV", 3), ("FINST", 4), ("FSYS", 5), ("FARITH", 6)];

/// Each of these traps after an older fault, in user mode: delivered, stopped
/// with 2 and with 3. Interrupts are due by their marks.
fn kept() -> Vec<(String, Runs)> {
    let mut cases = Vec::new();
    for (name, code) in OTHERS {
        let program = match code {
            3 => [op("STI", 0)],
            4 => [ILLEGAL],
            5 => [op("TRAP", 0)],
            6 => [op("DIVI", 0)],
            _ => [op("NOP", 0)],
        };
        let due = Registers { timer_pending: code == 1, key_pending: code == 2, ..mode(true) };
        let regs = after(Cause::NoWriteRight, due);
        let masked = Registers { iena: false, ..regs.clone() };
        let no_stack = Registers { ksp: 0, ..regs.clone() };
        cases.push((format!("{name} keeps the cause"), bare(regs, &program)));
        if code > 2 {
            cases.push((format!("{name} keeps the cause, stop 2"), bare(masked, &program)));
        }
        cases.push((format!("{name} keeps the cause, stop 3"), bare(no_stack, &program)));
    }
    cases
}

/// An entry is given for the page asked for: one that doesn't serve sends the
/// access to the tables, which answer or name the cause.
fn entries() -> Vec<(&'static str, Runs)> {
    use Access::{Fetch, Read, Write};
    let held = |access, in_user, rights: (bool, bool), words| {
        let old = after(Cause::AddressBeyond, mode(in_user));
        asking(access, old, Some(words)).entry(ASKED >> 12, 3, rights.0, rights.1)
    };
    let [no_user, no_write, neither] = [(false, true), (true, false), (false, false)];
    vec![
        ("a walk answers a read", held(Read, true, no_user, [0x2007, 0x3007])),
        ("a walk answers a write", held(Write, false, no_write, [0x2007, 0x3007])),
        ("a walk refuses a read", held(Read, true, no_user, [0x2007, 0x3006])),
        ("a walk refuses a fetch", held(Fetch, true, no_user, [0x4007, 0x3007])),
        ("a walk refuses a kernel write", held(Write, false, no_write, [0x2006, 0x3007])),
        ("a walk refuses a user write", held(Write, true, no_write, [0x2007, 0x3003])),
        ("a walk refuses for W, not U", held(Write, true, neither, [0x2007, 0x3005])),
        ("a walk leads beyond", held(Write, false, neither, [0x2007, 0x4007])),
        ("an entry serves an absent page", held(Write, true, (true, true), [0, 0])),
    ]
}

/// Instructions of two accesses, and a push.
fn instructions() -> Vec<(&'static str, Runs)> {
    let words = |regs: Registers, name: &str, four: u32, five: u32| {
        paged(after(Cause::AddressBeyond, regs), &[op(name, 0)]).words(TABLE, &[four, five])
    };
    let ab = |a: u32, b: u32| Registers { a, b, c: 2, ..mode(false) };
    let at = |sp: u32| Registers { sp, ..kernel() };
    let compared = Registers { a: 0x4001, b: 0x3002, c: 2, ..mode(true) };
    vec![
        ("RTI, its second read refused", words(at(0x3ff8), "RTI", 0x4007, 0)),
        ("RTI, both reads refused", words(at(0x4ff8), "RTI", 0x3006, 0x4007)),
        ("MCPY, its read refused", words(ab(0x3001, 0x4003), "MCPY", 0x3006, 0)),
        ("MCPY, its write refused", words(ab(0x4001, 0x4003), "MCPY", 0x3005, 0)),
        ("MCPY, both refused", words(ab(0x4001, 0x5003), "MCPY", 0x3006, 0x4007)),
        ("MCMP, its second read refused", words(compared, "MCMP", 0x3003, 0)),
        ("JSR, its push refused", words(at(0x4008), "JSR", 0x3005, 0)),
    ]
}

/// A refused slot leaves vadr and cause, the older ones or the fault's own.
fn slots() -> Vec<(&'static str, Runs)> {
    let at = |sp: u32| Registers { a: ASKED, sp, ..after(Cause::DirectoryAbsent, mode(false)) };
    // Page 2 has no W, page 4 is absent.
    let paged = |sp: u32, name: &str| {
        with_words(paged(at(sp), &[op(name, 0)]), [0x4007, 0x3006]).words(0x2008, &[0x2005])
    };
    vec![
        ("first slot refused, an older cause", paged(0x4008, "TRAP")),
        ("second slot refused, an older cause", paged(0x3008, "TRAP")),
        ("first slot refused, the fault's cause", paged(0x4008, "LX")),
        ("second slot refused, the fault's cause", paged(0x3008, "LX")),
        ("first slot beyond, an older cause", bare(at(0), &[op("TRAP", 0)])),
        ("second slot beyond, an older cause", bare(at(8), &[op("TRAP", 0)])),
    ]
}

/// Where pages are refused, each for its own cause from 2 on.
pub const REFUSED: [u32; 6] = [0x40_0001, 0xff80_0001, 0x4001, 0x5001, 0x6001, 0x7001];

/// Several steps; the handler returns.
fn sequences() -> Vec<(&'static str, Runs)> {
    let writes = REFUSED.iter().chain(&REFUSED[..1]);
    let writes: Vec<u32> = writes.flat_map(|at| [op("LBI", *at as i32), op("SXB", 0)]).collect();
    let refusing = |regs: Registers, program: &[u32]| {
        let runs = paged(regs, program).words(0x1004, &[0x2006]).words(0x1ff8, &[0x4007]);
        let runs = runs.words(0x2010, &[0x3006, 0x3003, 0x3005, 0x4007]);
        runs.words(HANDLER, &[op("RTI", 0)])
    };
    let times = |runs: Runs, times: u32, budget| (0..times).fold(runs, |runs, _| runs.run(budget));
    // The timer fires in step 13.
    let timed = Registers { a: 0x4003, timeout: 12, ..mode(true) };
    let traps = [op("LX", 0), op("DIVI", 0), ILLEGAL, op("STI", 0), op("TRAP", 0), op("NOP", 0)];
    let traps = times(refusing(timed, &traps), 5, 2);
    let read = refusing(Registers { a: 0x4003, ..mode(false) }, &[op("LX", 0)]);
    let quiet = Registers { a: 0x3001, b: 0x3000, ..after(Cause::NoUserRight, kernel()) };
    let served = [op("LX", 0), op("SX", 0), op("LBX", 0), op("SXB", 0), op("HALT", 0)];
    let quiet = paged(quiet, &served).run(0).run(MAX_BUDGET + 1).run(2).run(2);
    vec![
        ("one cause after the other", times(refusing(mode(true), &writes), 7, 3)),
        ("a page fault, then other traps", traps.run_keys(2, &[(11, 65)]).run_keys(1, &[(11, 65)])),
        (
            "LVAD after a page fault",
            read.words(HANDLER, &[op("LVAD", 0), op("RTI", 0)]).run(1).run(1).run(1),
        ),
        ("a cause outlasts quiet runs", quiet.run(1).run(1)),
    ]
}
