//! What must come of the directed cases on opcodes.

mod common;
use common::{after, after_runs};
use reference::types::{Registers, Stop, NO_KEY};

/// Cases of one step that completes: only a, pc and the count change.
fn gives_a(name: &str, a: u32) {
    let after = after(name);
    let given = after.given.record.regs.clone();
    assert_eq!(*after.regs(), Registers { a, pc: 0x104, count: 1, ..given }, "{name}");
}

#[test]
fn arithmetic() {
    gives_a("DIV overflow", 0x8000_0000);
    gives_a("MOD overflow", 0);
    gives_a("MOD of 7 by -2", 1);
    gives_a("DVUI by -1", 1);
    gives_a("MDUI by -2", 1);
    // 14,400 times 74,565 is 1,073,736,000, which leaves 71,936.
    gives_a("DVUI by 0x12345", 14_400);
    gives_a("MDUI by 0x12345", 71_936);
    gives_a("LI of -2^23", 0xff80_0000);
    assert_eq!(after("LBHI over old bits").regs().b, 0x81ab_cdef);
    gives_a("ANDI -2", 0xffff_fffe);
    gives_a("XORI -1", 0xffff_fffe);
    gives_a("MUL wraps", 0x0002_0001);
    gives_a("SHL by 33", 6);
    gives_a("SRU by -1", 1);
    gives_a("SHR by 64", 0x8000_0000);
    gives_a("GEU of equals", 1);
    gives_a("GE of signs", 0);
    gives_a("LTU of signs", 0);
    gives_a("LHI over old bits", 0x81ab_cdef);
    gives_a("SUBL reads memory", 7);
    assert_eq!(after("BGEU of equals").regs().pc, 0xfc);
}

#[test]
fn zero_divisors() {
    for name in ["DIV by zero", "MODI by zero", "DVUI by zero", "MDU by zero"] {
        let after = after(name);
        after.delivered(0xf00, 6, 0x104);
        assert_eq!((after.regs().a, after.regs().vadr), (5, 0), "{name}");
    }
    let walked = after("DIVL by zero leaves the walk");
    assert_eq!((walked.regs().stop, walked.regs().vadr), (Stop::Masked, 0));
    assert_eq!(walked.word(0x200c), 0x3027);
    assert_eq!(walked.entries()[1], (3, 3, true, false));
}

#[test]
fn pushes() {
    let immediate = after("PSHI -1");
    assert_eq!((immediate.word(0xef8), immediate.regs().sp), (0xffff_ffff, 0xef8));
    let kept = after("push keeps four bytes");
    assert_eq!((kept.word(0xef8), kept.word(0xefc)), (7, 0xeeee_eeee));
    let faulted = after("push from sp 0");
    assert_eq!((faulted.regs().sp, faulted.regs().vadr), (0, 0xffff_fff8));
    assert_eq!(faulted.regs().stop, Stop::Masked);
    let undelivered = after("push from sp 0, delivered");
    assert_eq!((undelivered.regs().sp, undelivered.regs().vadr), (0, 0xffff_fff8));
    assert_eq!(undelivered.regs().stop, Stop::NoFrame);
}

#[test]
fn jumps() {
    let call = after("JSRA is relative");
    assert_eq!((call.regs().pc, call.regs().sp, call.word(0xef8)), (0x124, 0xef8, 0x104));
    assert_eq!(after("JMPI").regs().pc, 0x124);
    // 0x104 + 0x12 + 0x11
    assert_eq!(after("JMPI drops low bits").regs().pc, 0x124);
    assert_eq!(after("JMP drops low bits").regs().pc, 0x124);
    assert_eq!(after("NOP with an operand").regs().pc, 0x104);
    let far_call = after("JSR drops low bits");
    assert_eq!((far_call.regs().pc, far_call.word(0xef8)), (0x124, 0x104));
    assert_eq!(after("JMPI by a negative a").regs().pc, 0x2000_00fc);
    assert_eq!(after("ENT drops low bits").regs().sp, 0xf08);
    let back = after("LEV drops low bits");
    assert_eq!((back.regs().pc, back.regs().sp), (0x204, 0xf10));
    assert_eq!(after("branch to an odd target").regs().pc, 0x124);
}

#[test]
fn widths() {
    assert_eq!(after("SLB stores one byte").word(0xf00), 0xffff_34ff);
    assert_eq!(after("SXH drops one bit").word(0x200), 0x1234);
    gives_a("LXS extends", 0xffff_8001);
    assert_eq!(after("LBXC extends").regs().b, 0xffff_ff80);
    assert_eq!(after("a store into the next instruction").regs().a, 9);
}

#[test]
fn blocks_end() {
    let differs = after("MCMP differs");
    let regs = differs.regs();
    // Step 1 finds 1 and 1, step 2 finds b's 2 and a's 3, with c = 3.
    assert_eq!((regs.a, regs.b, regs.c, regs.pc), (0xffff_ffff, 0x204, 0, 0x104));
    // 0x80 less 1, and 1 less 0x80.
    assert_eq!(after("MCMP of a high byte of b").regs().a, 0x7f);
    assert_eq!(after("MCMP of a high byte of a").regs().a, 0xffff_ff81);
    let high = after("MCHR finds a high byte");
    assert_eq!((high.regs().a, high.regs().c, high.regs().pc), (0x200, 0, 0x104));
    let long = after("MCMP with c = 2^31");
    assert_eq!((long.regs().a, long.regs().c, long.regs().pc), (0x201, 0x7fff_ffff, 0x100));
    let first = after_runs("MCMP of equals", 1);
    assert_eq!((first.regs().a, first.regs().c, first.regs().pc), (0x303, 0, 0x100));
    let second = after("MCMP of equals");
    assert_eq!((second.regs().a, second.regs().b, second.regs().pc), (0, 0x203, 0x104));
    gives_a("MCMP with c = 0", 0);
    gives_a("MCHR with c = 0", 0);
    gives_a("MCPY with c = 0", 0xffff_0000);
    let found = after("MCHR finds b's low byte");
    assert_eq!((found.regs().a, found.regs().c, found.regs().pc), (0x202, 0, 0x104));
    let missed = after("MCHR finds nothing");
    assert_eq!((missed.regs().a, missed.regs().c, missed.regs().pc), (0, 0, 0x104));
}

#[test]
fn blocks_store() {
    let two = after_runs("MSET", 1);
    assert_eq!((two.regs().a, two.regs().c, two.regs().pc), (0x202, 0, 0x100));
    assert_eq!(two.word(0x200), 0xabab);
    assert_eq!(after("MSET").regs().pc, 0x104);
    let long = after("MSET with c = 2^16");
    assert_eq!((long.regs().c, long.regs().pc, long.word(0x200)), (0xfffe, 0x100, 0x0505));
    assert_eq!(after("MCPY overlapping").word(0x200), 0x0101_0101);
    // The first byte turns MSET into NOP.
    let itself = after("MSET over itself");
    assert_eq!((itself.regs().pc, itself.regs().c), (0x104, 8));
    let beyond = after("MCPY from beyond");
    assert_eq!((beyond.regs().vadr, beyond.regs().c), (0x1000, 4));
    assert_eq!(beyond.regs().stop, Stop::Masked);
    assert_eq!(after("MCPY b before a").regs().vadr, 0x1003);
    after("a key within a block").delivered(0xf00, 2, 0x100);
}

#[test]
fn devices() {
    let first = after_runs("BOUT until full", 1);
    assert_eq!((first.regs().a, first.regs().written, first.machine.console[0]), (1, 1, 0x41));
    let full = after("BOUT until full");
    assert_eq!((full.regs().a, full.regs().written), (0xffff_ffff, 1));
    assert_eq!(after("BOUT twice").machine.console, [0x41, 0x42, 7]);
    gives_a("BOUT without a console", 0xffff_ffff);
    let read = after_runs("BIN twice", 1);
    assert_eq!((read.regs().a, read.regs().kbchar), (65, NO_KEY));
    assert_eq!(after("BIN twice").regs().a, NO_KEY);
    assert_eq!(after("LVAD twice").regs().a, 0x123);
}

#[test]
fn modes() {
    let masked = after_runs("CLI", 1);
    assert_eq!((masked.regs().a, masked.regs().iena), (1, false));
    assert_eq!(after("CLI").regs().a, 0);
    assert!(after("STI").regs().iena);
    assert_eq!(after("SSP drops low bits").regs().ksp, 0x1230);
    assert_eq!(after("SUSP drops low bits").regs().usp, 0x1230);
    assert_eq!(after("IVEC drops low bits").regs().ivec, 0x1234);
    gives_a("MSIZ", 4096);
    let open = after("SSP from user mode");
    open.delivered(0xe00, 19, 0x104);
    assert_eq!(open.regs().ksp, 0xe00);
    assert_eq!(after("0xb3").regs().stop, Stop::Masked);
}
