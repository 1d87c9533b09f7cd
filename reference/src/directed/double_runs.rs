//! Doubles: floating instructions one after another, and what may lie between
//! two of them: a store into the next, the end of a run, of a page, of memory.

use super::doubles::{code, ready};
use super::{bare, open, paged, user, Named, PROGRAM};
use crate::case::Runs;
use crate::double::widened;
use crate::types::Registers;
use crate::worked::op;

/// A floating store over what follows it.
fn rewritten() -> Vec<(&'static str, Runs)> {
    let next = PROGRAM as i32 + 8;
    let eight = |first: (&str, i32), second: (&str, i32)| {
        let [low, high] = [first, second].map(|(name, imm)| u64::from(op(name, imm)));
        let program = code(&[("LBI", next), ("SXD", 0), ("ADDF", 0), ("ADDF", 0)]);
        bare(Registers { f: high << 32 | low, ..ready() }, &program).run(4)
    };
    let four = |word: u32| {
        let program = code(&[("NOP", 0), ("SLF", next - 0xf00), ("ADDF", 0), ("LBIF", 3)]);
        bare(Registers { f: widened(word), ..ready() }, &program).run(4)
    };
    vec![
        ("SXD writes two floating instructions", eight(("LIF", 5), ("LBIF", 7))),
        ("SXD writes two other instructions", eight(("LI", 5), ("LBI", 7))),
        ("SLF writes a floating instruction", four(op("LIF", 5))),
        ("SLF writes another instruction", four(op("LI", 5))),
    ]
}

fn ends() -> Vec<(&'static str, Runs)> {
    let program = code(&[("LIF", 6), ("LBIF", 2), ("DIVF", 0), ("PSHF", 0), ("ADDF", 0)]);
    let two = code(&[("LIF", 3), ("LBIF", 4)]);
    let at = |pc: u32, regs: Registers| Registers { pc, ..regs };
    // Up to the end of a page in frame 3, then a page with this table word, whose
    // words lie at `next`.
    let over_page = |regs: Registers, page: u32, word: u32, next: u32| {
        paged(at(page << 12 | 0xff8, regs), &[])
            .words(0x3ff8, &two)
            .words(0x2000 + 4 * page, &[0x3007, word])
            .words(next, &code(&[("LIF", 9)]))
    };
    let by_user = Registers { mode: true, ..open(user()) };
    vec![
        (
            "floating instructions in short runs",
            bare(ready(), &program).run(1).run(2).run(0).run(2),
        ),
        ("floating instructions up to M", bare(at(0xff8, ready()), &[]).words(0xff8, &two).run(3)),
        (
            "floating instructions up to an absent page",
            over_page(ready(), 3, 0x3006, 0x3000).run(3),
        ),
        ("floating instructions over a page's end", over_page(ready(), 3, 0x3007, 0x3000).run(3)),
        ("floating instructions up to a page held for the kernel", {
            let runs = over_page(by_user, 3, 0x0003, 0);
            runs.entry(3, 3, true, false).entry(4, 0, false, false).run(3)
        }),
        ("floating instructions up to a page, one 256 pages before it held", {
            let runs = over_page(ready(), 0x103, 0x3007, 0x3000).words(0, &code(&[("LIF", 8)]));
            runs.entry(4, 0, true, true).run(3)
        }),
    ]
}

pub fn cases() -> Vec<Named> {
    super::named([rewritten(), ends()].concat()).collect()
}
