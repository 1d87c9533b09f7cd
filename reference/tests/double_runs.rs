//! What comes of floating instructions one after another. Document 02, item 7.

mod common;
use common::{after, after_runs};
use reference::types::Cause;

fn bits(list: [f64; 2]) -> (u64, u64) {
    (list[0].to_bits(), list[1].to_bits())
}

/// What was stored is executed, not what stood there before.
#[test]
fn the_next_instruction_is_read_after_a_store() {
    for (name, f, g) in [
        ("SXD writes two floating instructions", 5.0, 7.0),
        ("SLF writes a floating instruction", 5.0, 3.0),
    ] {
        let after = after(name);
        assert_eq!((after.regs().f, after.regs().g), bits([f, g]), "{name}");
        assert_eq!(after.regs().pc, 0x110, "{name}");
    }
    let two = after("SXD writes two other instructions");
    assert_eq!((two.regs().a, two.regs().b, two.regs().g), (5, 7, 0));
    let one = after("SLF writes another instruction");
    assert_eq!((one.regs().a, one.regs().g), (5, 3.0f64.to_bits()));
}

/// A run ends after its steps also where the next instruction is floating.
#[test]
fn a_run_ends_between_two() {
    let name = "floating instructions in short runs";
    let expected = [(1, [6.0, 0.0], 0x104), (3, [3.0, 2.0], 0x10c), (3, [3.0, 2.0], 0x10c)];
    for (runs, (steps, values, pc)) in (1..).zip(expected) {
        let after = after_runs(name, runs);
        assert_eq!((after.regs().f, after.regs().g), bits(values), "{runs}");
        assert_eq!((after.regs().count, after.regs().pc), (steps, pc), "{runs}");
    }
    let after = after(name);
    assert_eq!((after.regs().f, after.regs().sp, after.regs().count), (5.0f64.to_bits(), 0xef8, 5));
}

/// The fetch after two is denied, and delivered with the fetch address.
#[test]
fn memory_and_pages_end_after_two() {
    for (name, at, sp, code, cause) in [
        ("floating instructions up to M", 0x1000, 0xf00, 0, Cause::AddressBeyond),
        ("floating instructions up to an absent page", 0x4000, 0xf00, 7, Cause::TableAbsent),
        (
            "floating instructions up to a page held for the kernel",
            0x4000,
            0xe00,
            23,
            Cause::NoUserRight,
        ),
    ] {
        let after = after(name);
        assert_eq!((after.regs().f, after.regs().g), bits([3.0, 4.0]), "{name}");
        assert_eq!((after.regs().vadr, after.regs().cause), (at, cause), "{name}");
        assert_eq!([after.word(sp - 8), after.word(sp - 16)], [at, code], "{name}");
    }
}

/// The word of the page itself is the next instruction.
#[test]
fn the_next_page_is_the_one_asked() {
    for (name, pc) in [
        ("floating instructions over a page's end", 0x4004),
        ("floating instructions up to a page, one 256 pages before it held", 0x10_4004),
    ] {
        let after = after(name);
        assert_eq!((after.regs().f, after.regs().g), bits([9.0, 4.0]), "{name}");
        assert_eq!(after.regs().pc, pc, "{name}");
    }
}
