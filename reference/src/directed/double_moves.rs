//! Doubles: what is moved, and by which accesses. Addresses modulo 8, the ends of
//! pages and of memory, faults, pushes and pops.

use super::doubles::{code, ready};
use super::{bare, open, paged, user, Named, HANDLER, PROGRAM};
use crate::case::Runs;
use crate::types::Registers;
use crate::words;
use crate::worked::op;

/// A signalling NaN with digits of its own.
pub const SIGNALLING: u64 = 0xfff4_5678_9abc_def0;
/// Where the programs here have their data.
pub const DATA: u32 = 0x400;

fn put(mut runs: Runs, at: u32, value: u64) -> Runs {
    words::put_double(&mut runs.memory, at, 8, value);
    runs
}

/// Bytes that all differ.
fn pattern() -> Vec<u8> {
    (0..64).map(|nth: u8| 0x41 + nth).collect()
}

/// A program over data, run to its end; sp is 0xf00.
fn over_data(regs: Registers, program: &[u32]) -> Runs {
    let steps = program.len() as u64;
    bare(regs, program).bytes(DATA as usize, &pattern()).run(steps)
}

/// A NaN by each way that a double is moved, from SOURCE: it keeps its bits. Stores
/// leave it at DATA, pushes under sp.
fn nan_moved() -> Runs {
    const SOURCE: u32 = DATA + 0x80;
    let (by_sp, source) = (SOURCE as i32 - 0xf00, SOURCE as i32);
    let mut list: Vec<u32> = Vec::new();
    let by_pc = |list: &mut Vec<u32>, name: &str, at: u32| {
        let next = PROGRAM + 4 * list.len() as u32 + 4;
        list.push(op(name, at as i32 - next as i32));
    };
    list.extend(code(&[("LLD", by_sp), ("SLD", DATA as i32 - 0xf00), ("LIF", 3)]));
    by_pc(&mut list, "LGD", SOURCE);
    by_pc(&mut list, "SGD", DATA + 8);
    list.extend(code(&[("LIF", 3), ("LI", source), ("LXD", 0), ("LBI", DATA as i32)]));
    list.extend(code(&[("SXD", 16), ("LBLD", by_sp), ("PSHF", 0), ("PSHG", 0), ("LBIF", 2)]));
    by_pc(&mut list, "LBGD", SOURCE);
    list.extend(code(&[("PSHG", 0), ("LBIF", 2), ("LBI", source), ("LBXD", 0), ("PSHG", 0)]));
    list.extend(code(&[("LBIF", 4), ("LBAD", 0), ("PSHG", 0), ("ENT", -16)]));
    // From the lowest of what was pushed up, into g and into f.
    list.extend(code(&[("LIF", 1), ("LBIF", 2), ("ENT", 16), ("POPG", 0), ("POPF", 0)]));
    let steps = list.len() as u64;
    put(bare(ready(), &list), SOURCE, SIGNALLING).run(steps)
}

/// A load and a store of a double, then of a single, at each address modulo 8.
fn addresses() -> Vec<(&'static str, Runs)> {
    let by = |load: &str, store: &str| {
        let mut list = code(&[("LI", DATA as i32), ("LBI", DATA as i32 + 0x100)]);
        for nth in 0..8 {
            list.extend(code(&[(load, nth), (store, 16 * nth + nth)]));
        }
        over_data(ready(), &list)
    };
    let to_g = || {
        let mut list = Vec::new();
        for nth in 0..8 {
            list.extend(code(&[("LBI", DATA as i32), ("LBXD", nth), ("PSHG", 0)]));
        }
        over_data(ready(), &list)
    };
    let on_stack = || {
        let mut list = Vec::new();
        for nth in 0..8 {
            list.extend(code(&[("LLD", DATA as i32 - 0xf00 + nth), ("SLD", -8 * nth - nth)]));
            list.extend(code(&[("LBLF", DATA as i32 - 0xf00 + 8 + nth), ("PSHG", 0), ("ENT", 8)]));
        }
        over_data(ready(), &list)
    };
    vec![
        ("doubles at each address modulo 8", by("LXD", "SXD")),
        ("singles at each address modulo 8", by("LXF", "SXF")),
        ("doubles to g at each address modulo 8", to_g()),
        ("doubles on the stack at each address modulo 8", on_stack()),
    ]
}

/// The same instruction with eight operands, a run for each; a fault is
/// delivered, and the handler returns.
fn eight(runs: impl Fn(&[u32]) -> Runs, name: &str, from: i32, steps: u64) -> Runs {
    let list: Vec<u32> = (0..8).map(|nth| op(name, from + nth)).collect();
    let runs = runs(&list).words(HANDLER, &[op("RTI", 0)]);
    (0..8).fold(runs, |runs, _| runs.run(steps))
}

fn edges() -> Vec<(&'static str, Runs)> {
    let ab = |a: u32, b: u32| Registers { a, b, f: 77, g: 5, ..ready() };
    let unpaged = |list: &[u32]| bare(ab(0xfe0, 0xfe0), list).bytes(0xfe0, &pattern()[..32]);
    let by_user = |list: &[u32]| {
        let regs = Registers { mode: true, f: 7, ..open(user()) };
        paged(Registers { a: 0x7000, b: 0x3000, ..regs }, list).words(0x200c, &[0x3005])
    };
    let page_end = paged(ab(0x3ff9, 0x2fff), &code(&[("LXD", 0), ("SXD", 0x1000), ("SXF", -7)]));
    let beyond = paged(ab(0x4005, 0x4003), &code(&[("LXD", 0), ("SXD", 0)]))
        .words(0x2010, &[0x4007])
        .words(HANDLER, &[op("RTI", 0)]);
    let absent =
        paged(ab(0, 0x40_0006), &code(&[("LBXD", 0), ("SXD", 0)])).words(HANDLER, &[op("RTI", 0)]);
    vec![
        ("doubles read up to M", eight(unpaged, "LXD", 0x18, 1)),
        ("doubles written up to M", eight(unpaged, "SXD", 0x18, 1)),
        ("doubles read from M on", eight(unpaged, "LXD", 0x20, 2)),
        ("doubles written from M on", eight(unpaged, "SXD", 0x20, 2)),
        ("singles written from M on", eight(unpaged, "SXF", 0x20, 2)),
        ("doubles read in an absent page", eight(by_user, "LXD", 0xff8, 2)),
        ("doubles written without W", eight(by_user, "SXD", 0xff8, 2)),
        ("singles read in an absent page", eight(by_user, "LXF", 0xff8, 2)),
        ("doubles at the ends of pages", page_end.bytes(0x3ff0, &pattern()[..16]).run(3)),
        ("doubles beyond memory by a table", beyond.run(2).run(2)),
        ("doubles without a directory", absent.run(2).run(2)),
        ("a double at the last address", bare(ab(u32::MAX, 0), &[op("LXD", 0)]).run(1)),
    ]
}

/// Stores of eight bytes into table words.
fn tables() -> Vec<(&'static str, Runs)> {
    let f = 0x0000_3007_0000_2007;
    let ab = |b: u32| Registers { b, f, ..ready() };
    let program = code(&[("SXD", 0), ("LBX", 4), ("LBX", -4)]);
    vec![
        ("SXD over its own table word", paged(ab(0x2008), &program).run(1).run(2)),
        ("SXD over a held directory word", paged(ab(0x1004), &program).run(1).run(2)),
        (
            "LXD of its own table word",
            paged(Registers { a: 0x200c, ..ready() }, &[op("LXD", 0)]).run(1),
        ),
    ]
}

fn stack() -> Vec<(&'static str, Runs)> {
    let regs = || Registers { f: SIGNALLING, g: 0x0102_0304_0506_0708, ..ready() };
    let at = |sp: u32| Registers { sp, ..regs() };
    let shut = |sp: u32| Registers { iena: false, ..at(sp) };
    let pushes = code(&[("PSHF", 0), ("PSHG", 0), ("POPF", 0), ("POPG", 0)]);
    let crossing = paged(at(0x3008), &pushes).run(1).run(3);
    let refused = paged(shut(0x3008), &pushes).words(0x200c, &[0x3005]).run(1);
    vec![
        (
            "pushes and pops of doubles",
            bare(regs(), &pushes).bytes(0xee8, &[0xee; 32]).run(2).run(2),
        ),
        ("a double pushed from sp 0", bare(shut(0), &[op("PSHF", 0)]).run(1)),
        ("a double pushed from sp 0, by g", bare(shut(0), &[op("PSHG", 0)]).run(1)),
        (
            "a double popped at M - 8",
            bare(at(0xff8), &[op("POPF", 0)]).bytes(0xff8, &pattern()[..8]).run(1),
        ),
        ("a double popped at M", bare(shut(0x1000), &[op("POPG", 0)]).run(1)),
        ("a double popped at M, delivered", {
            let user = Registers { user: true, sp: 0x1000, ..regs() };
            bare(user, &[op("POPF", 0)]).run(1)
        }),
        ("doubles pushed over a page's end", crossing),
        ("a double pushed without W", refused),
    ]
}

pub fn cases() -> Vec<Named> {
    let lists = [addresses(), edges(), tables(), stack()];
    let moved = [("a NaN moved", nan_moved())];
    super::named([moved.to_vec(), lists.concat()].concat()).collect()
}
