//! Walks, marks, rights, and the page buffer.

use super::{bare, kernel, open, paged, user};
use crate::case::Runs;
use crate::types::Registers;
use crate::worked::op;

pub fn cases() -> Vec<(&'static str, Runs)> {
    [marks(), rights(), buffer(), full(), tables_as_data(), held_words()].concat()
}

fn ab(a: u32, b: u32) -> Registers {
    Registers { a, b, ..kernel() }
}

fn marks() -> Vec<(&'static str, Runs)> {
    let read = |at: u32| paged(ab(at, 0), &[op("LX", 0)]);
    let write = |at: u32| paged(ab(9, at), &[op("SX", 0)]);
    vec![
        ("directory absent", read(0x40_0003).run(1)),
        ("directory word without P", read(0x40_0000).words(0x1004, &[0x2006]).run(1)),
        ("directory far beyond memory", read(0x40_0000).words(0x1004, &[0xffff_f007]).run(1)),
        ("frame far beyond memory", read(0x4002).words(0x2010, &[0xffff_f007]).run(1)),
        ("no D in the directory word", write(0x40_3000).words(0x1004, &[0x2007]).run(1)),
        ("directory beyond memory", read(0x40_0000).words(0x1004, &[0x4007]).run(1)),
        ("table word absent", read(0x4000).words(0x2010, &[0x3006]).run(1)),
        ("no W in the table word", write(0x3000).words(0x200c, &[0x3005]).run(1)),
        ("no W in the directory word", write(0x40_3000).words(0x1004, &[0x2005]).run(1)),
        ("frame beyond, by a write", write(0x4002).words(0x2010, &[0x4007]).run(1)),
        ("frame beyond, by a read", read(0x4002).words(0x2010, &[0x4007]).run(1)),
        ("other bits of words are kept", read(0x3000).words(0x200c, &[0x3f9f]).run(1)),
        ("vadr of an odd half", paged(ab(0x7001, 0), &[op("LXH", 2)]).run(1)),
        (
            "the last page",
            read(0xffff_fffe)
                .words(0x1ffc, &[0x2007])
                .words(0x2ffc, &[0x3007])
                .words(0x3ffc, &[77])
                .run(1),
        ),
    ]
}

fn rights() -> Vec<(&'static str, Runs)> {
    let read = |regs: Registers, word: u32| {
        paged(Registers { a: 0x3000, ..regs }, &[op("LX", 0)]).words(0x200c, &[word])
    };
    let write = |regs: Registers, word: u32| {
        paged(Registers { b: 0x3000, ..regs }, &[op("SX", 0)]).words(0x200c, &[word])
    };
    let by_directory = |runs: Runs, word: u32| {
        let mut runs = runs.words(0x1004, &[word]);
        runs.record.regs.a |= 0x40_0000;
        runs.record.regs.b |= 0x40_0000;
        runs
    };
    vec![
        ("read with D set", read(kernel(), 0x3047).run(1)),
        ("read with D clear", read(kernel(), 0x3007).run(1)),
        ("read with D set, no W", read(kernel(), 0x3045).run(1)),
        ("read with D set, no W above", by_directory(read(kernel(), 0x3047), 0x2005).run(1)),
        ("kernel read without U", read(kernel(), 0x3003).run(1)),
        ("kernel write without U", write(kernel(), 0x3003).run(1)),
        ("user read without U", read(user(), 0x3003).run(1)),
        ("user read without U above", by_directory(read(user(), 0x3007), 0x2003).run(1)),
        ("kernel read without U above", by_directory(read(kernel(), 0x3007), 0x2003).run(1)),
        ("user write", write(user(), 0x3007).run(1)),
        ("user write without W", write(open(user()), 0x3005).run(1)),
        ("kernel write without W", write(open(kernel()), 0x3005).run(1)),
    ]
}

fn buffer() -> Vec<(&'static str, Runs)> {
    let program = [op("LX", 0), op("LI", 0x2000), op("LX", 0), op("SX", 0), op("SX", 4)];
    let held = |regs: Registers, word: u32, user: bool, write: bool| {
        paged(regs, &[word]).words(0x200c, &[0x3007]).entry(3, 3, user, write).run(1)
    };
    let asked = |regs: Registers| Registers { a: 0x3000, b: 0x3000, ..regs };
    let refused = paged(asked(user()), &[op("LX", 0)])
        .words(0x200c, &[0x3003])
        .entry(3, 3, false, true)
        .entry(0, 0, true, true)
        .run(1);
    let stale =
        paged(asked(user()), &[op("SX", 0)]).words(0x200c, &[0]).entry(3, 2, true, true).run(1);
    let setter = |a: u32, word: u32| paged(ab(a, 0), &[word]).entry(9, 3, true, true).run(1);
    vec![
        ("entries keep their positions", paged(ab(0x3000, 0x3000), &program).run(3).run(2)),
        ("user meets a kernel entry", held(asked(user()), op("LX", 0), false, true)),
        (
            "user fetch meets a kernel entry",
            paged(user(), &[op("NOP", 0)]).entry(0, 0, false, true).run(1),
        ),
        ("fetch with D set", paged(kernel(), &[op("NOP", 0)]).words(0x2000, &[0x0047]).run(1)),
        ("PDIR to another directory", elsewhere()),
        ("user write meets a kernel entry", held(asked(user()), op("SX", 0), false, true)),
        ("user write meets a read entry", held(asked(user()), op("SX", 0), true, false)),
        ("write meets a read entry", held(asked(kernel()), op("SX", 0), true, false)),
        ("a refused walk leaves the entry", refused),
        ("a stale entry serves", stale),
        ("PDIR with the same value", setter(0x1fff, op("PDIR", 0))),
        ("PDIR beyond memory", setter(0x4000, op("PDIR", 0))),
        ("SPAG with the same value", setter(2, op("SPAG", 0))),
        ("PDIR at the last page", setter(0x3fff, op("PDIR", 0))),
        ("PDIR far beyond", setter(0xffff_f000, op("PDIR", 0))),
        ("SPAG off", setter(0, op("SPAG", 0))),
        ("SPAG by a low byte of 0", bare(ab(0x8000_0000, 0), &[op("SPAG", 0)]).run(1)),
        ("SPAG by an even number", bare(ab(2, 0), &[op("SPAG", 0), op("NOP", 0)]).run(2)),
        (
            "paging off keeps entries",
            bare(ab(0, 0x200), &[op("SX", 0)]).entry(0, 0, true, true).run(1),
        ),
        ("user mode with paging off", bare(user(), &[op("SL", 0)]).run(1)),
    ]
}

/// Page 3 becomes a directory and its own table, by which page 0 leads to it:
/// the next instruction is the one there.
fn elsewhere() -> Runs {
    paged(ab(0x3000, 0), &[op("PDIR", 0), op("LI", 1)])
        .words(0x3000, &[0x3007])
        .words(0x3104, &[op("LI", 2)])
        .run(2)
}

/// 64 entries: page 0, where the program is, and 63 others.
fn full() -> Vec<(&'static str, Runs)> {
    let filled = |regs: Registers, word: u32| {
        let mut runs = paged(regs, &[word]).entry(0, 0, true, true);
        for page in 0..63 {
            runs = runs.entry(0x100 + page, page % 4, false, true);
        }
        runs
    };
    let mut short = filled(ab(0x3000, 0), op("LX", 0));
    short.record.buffer.count = 63;
    vec![
        ("64 held, a new page", filled(ab(0x3000, 0), op("LX", 0)).run(1)),
        ("64 held, a held page", filled(ab(0, 0x13_e000), op("LBX", 0)).run(1)),
        (
            "64 held, a page replaced",
            filled(Registers { a: 0x10_0000, ..user() }, op("LX", 0))
                .words(0x2400, &[0x3007])
                .run(1),
        ),
        ("64 held, a faulting walk", filled(ab(0x7000, 0), op("LX", 0)).run(1)),
        ("63 held, a new page", short.run(1)),
    ]
}

fn tables_as_data() -> Vec<(&'static str, Runs)> {
    let block = Registers { a: 0x3010, b: 0x200c, c: 1, ..kernel() };
    vec![
        ("MCPY of the word it walks", paged(block.clone(), &[op("MCPY", 0)]).run(1)),
        ("MCMP of the word it walks", paged(block, &[op("MCMP", 0)]).words(0x3010, &[7]).run(1)),
        ("LX of its own table word", paged(ab(0x2008, 0), &[op("LX", 0)]).run(1)),
        ("SX into its own table word", paged(ab(0x3007, 0x2008), &[op("SX", 0)]).run(1)),
        ("SXB into its own table word", paged(ab(0x30, 0x2009), &[op("SXB", 0)]).run(1)),
    ]
}

/// The directory as its own table: page 0 is the directory's frame.
fn self_mapped(regs: Registers, word: u32) -> Runs {
    Runs::new(8192, Registers { paging: true, pdir: 0x1000, ..regs })
        .words(0x1000, &[0x1007])
        .words(0x1100, &[word, op("NOP", 0)])
}

/// Stores of demand 3's kind, by an instruction and by a frame.
fn held_words() -> Vec<(&'static str, Runs)> {
    let on_words = Registers { sp: 0x2010, ..open(kernel()) };
    vec![
        ("self-mapped read", self_mapped(ab(0, 0), op("LX", 0)).run(1)),
        ("self-mapped store", self_mapped(ab(0x0007, 0), op("SX", 0)).run(1).run(1)),
        ("a frame into held words", paged(on_words, &[op("TRAP", 0)]).run(1).run(2)),
    ]
}
