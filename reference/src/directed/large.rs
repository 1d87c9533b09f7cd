//! Memories of 1 and 2 MiB: the edges of memory, tables high in it, and page
//! and frame numbers bit by bit.

use super::{kernel, open, HANDLER};
use crate::case::{Runs, MAX_MEMORY};
use crate::types::{Registers, PAGE};
use crate::worked::op;

const MIB: usize = 1 << 20;
const M: u32 = MAX_MEMORY as u32;

pub fn cases() -> Vec<(&'static str, Runs)> {
    [edges(), tables(), bits()].concat()
}

/// A program at PROGRAM, paging off.
fn bare(length: usize, regs: Registers, program: &[u32]) -> Runs {
    Runs::new(length, regs).words(super::PROGRAM, program)
}

fn ab(a: u32, b: u32) -> Registers {
    Registers { a, b, ..kernel() }
}

fn edges() -> Vec<(&'static str, Runs)> {
    let at = |sp: u32| Registers { sp, ..open(kernel()) };
    let trap = [op("TRAP", 0)];
    vec![
        ("MSIZ of 1 MiB", bare(MIB, kernel(), &[op("MSIZ", 0)]).run(1)),
        ("MSIZ of 2 MiB", bare(2 * MIB, kernel(), &[op("MSIZ", 0)]).run(1)),
        (
            "a read just below 2 MiB",
            bare(2 * MIB, ab(M - 1, 0), &[op("LXB", 0)]).bytes(2 * MIB - 1, &[99]).run(1),
        ),
        ("a store at 1 MiB", bare(2 * MIB, ab(7, MIB as u32), &[op("SX", 0), op("SX", -4)]).run(2)),
        ("a read at 2 MiB", bare(2 * MIB, ab(M, 0), &[op("LX", 0)]).run(1)),
        ("a frame just below M", bare(2 * MIB, at(M), &trap).run(1)),
        ("a frame just at M", bare(2 * MIB, at(M + 8), &trap).run(1)),
        ("a frame beyond M", bare(2 * MIB, at(M + 16), &trap).run(1)),
        ("PDIR just below M", bare(2 * MIB, ab(M - 1, 0), &[op("PDIR", 0)]).run(1)),
        ("PDIR at M", bare(2 * MIB, ab(M, 0), &[op("PDIR", 0)]).run(1)),
    ]
}

/// The directory in the last frame, a table in the frame before it; page 0 is
/// the program's.
fn high(regs: Registers, program: &[u32]) -> Runs {
    let (directory, table) = (M - PAGE, M - 2 * PAGE);
    bare(2 * MIB, Registers { paging: true, pdir: directory, ..regs }, program)
        .words(directory, &[table + 7])
        .words(table, &[0x0007])
}

fn tables() -> Vec<(&'static str, Runs)> {
    let (directory, table) = (M - PAGE, M - 2 * PAGE);
    let last = |runs: Runs| runs.words(directory + 0xffc, &[table + 7]);
    let frame = M - 3 * PAGE;
    vec![
        (
            "the last words of high tables",
            last(high(ab(0xffff_fffc, 0), &[op("LX", 0)]))
                .words(table + 0xffc, &[frame + 7])
                .words(frame + 0xffc, &[88])
                .run(1),
        ),
        (
            "a frame at M by a table",
            high(ab(9, 0x1004), &[op("SX", 0)]).words(table + 4, &[M + 7]).run(1),
        ),
        (
            "a directory word at M",
            high(ab(0x40_0004, 0), &[op("LX", 0)]).words(directory + 4, &[M + 7]).run(1),
        ),
        (
            "a store into the last frame",
            high(ab(9, 0x1ffc), &[op("SX", 0)]).words(table + 4, &[directory + 7]).run(1),
        ),
    ]
}

fn bits() -> Vec<(&'static str, Runs)> {
    vec![
        ("pages of one bit", pages().run(3 * 20 + 1)),
        ("frames of one bit", frames().run(2 * 20 + 11)),
    ]
}

/// The pages of one bit each are read. The lower ten lead to frames of one bit
/// each, of which nine are in memory; the upper ten, by the same table, to
/// frame 0. A handler goes on with the next.
fn pages() -> Runs {
    let (directory, table) = (M - PAGE, M - 2 * PAGE);
    let read = |page: u32| {
        let (high, low) = (page >> 24, page & 0xff_ffff);
        [op("LBI", high as i32), op("LBHI", low as i32), op("LBX", 0x400)]
    };
    let program: Vec<u32> = (0..20).flat_map(|bit| read(PAGE << bit)).collect();
    let mut runs = high(open(kernel()), &program).words(HANDLER, &[op("RTI", 0)]);
    for bit in 0..10 {
        runs = runs.words(directory + (4 << bit), &[table + 7]);
        runs = runs.words(table + (4 << bit), &[(PAGE << bit) + 7]);
    }
    runs
}

/// Pages 1 to 20 lead to the frames of one bit each, and are read.
fn frames() -> Runs {
    let table = M - 2 * PAGE;
    let read = |page: i32| [op("LBI", page * PAGE as i32), op("LBX", 0x400)];
    let program: Vec<u32> = (1..=20).flat_map(read).collect();
    let mut runs = high(open(kernel()), &program).words(HANDLER, &[op("RTI", 0)]);
    for bit in 0..20 {
        runs = runs.words(table + 4 * (bit + 1), &[(PAGE << bit) + 7]);
    }
    for bit in 0..9 {
        runs = runs.words((PAGE << bit) + 0x400, &[0x1000 + bit]);
    }
    runs
}
