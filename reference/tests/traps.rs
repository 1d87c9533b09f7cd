//! What must come of the directed cases on traps, stops and fetches.

mod common;
use common::after;
use reference::types::{Cause, Registers, Stop};

#[test]
fn a_stop_with_3_on_an_interrupt_ends_waiting() {
    let after = after("stop 3 ends waiting");
    let given = after.given.record.regs.clone();
    let stopped = Registers { waiting: false, stop: Stop::NoFrame, count: 1, ..given };
    let expected = Registers { keys: 1, kbchar: 65, key_pending: true, ..stopped };
    assert_eq!(*after.regs(), expected);
    assert!(after.memory_is_unchanged());
}

#[test]
fn a_stop_keeps_the_clocks_work() {
    let after = after("stop 2 keeps the clock");
    let given = after.given.record.regs.clone();
    let stopped = Registers { stop: Stop::Masked, count: 1, ..given };
    let expected = Registers { keys: 1, kbchar: 65, timer: 3, key_pending: true, ..stopped };
    assert_eq!(*after.regs(), expected);
}

#[test]
fn a_stop_keeps_the_faults_vadr_and_cause_and_nothing_else() {
    let cause = Cause::AddressBeyond;
    for (name, stop) in
        [("stop 2 keeps vadr", Stop::Masked), ("stop 3 keeps the fault's vadr", Stop::NoFrame)]
    {
        let after = after(name);
        let given = after.given.record.regs.clone();
        let expected = Registers { stop, count: 1, vadr: 0x1235, cause, ..given };
        assert_eq!(*after.regs(), expected, "{name}");
    }
}

#[test]
fn a_stop_leaves_user_mode_and_pc() {
    for (name, stop) in [
        ("stop 3 leaves the program's state", Stop::NoFrame),
        ("stop 2 in user mode", Stop::Masked),
    ] {
        let after = after(name);
        let given = after.given.record.regs.clone();
        assert_eq!(*after.regs(), Registers { stop, count: 1, ..given });
        assert!(after.memory_is_unchanged());
    }
}

#[test]
fn halt_stops_after_itself() {
    let after = after("halt");
    assert_eq!(after.regs().stop, Stop::Halted);
    assert_eq!(after.regs().pc, 0x104);
    let steps: Vec<u64> = after.outcomes.iter().map(|outcome| outcome.steps).collect();
    assert_eq!(steps, [1, 0]);
}

#[test]
fn the_stored_pc() {
    let block = after("block fault's pc");
    block.delivered(0xf00, 0, 0x104);
    assert_eq!(block.regs().vadr, 0x1000);
    assert_eq!((block.regs().a, block.regs().b, block.regs().c), (0x200, 0x1000, 2));
    after("FINST's pc").delivered(0xf00, 4, 0x104);
    after("FPRIV's pc").delivered(0xe00, 19, 0x104);
    let trap = after("TRAP's pc");
    trap.delivered(0xe00, 21, 0x104);
    assert_eq!(trap.regs().usp, 0xf00);
    after("key in user mode").delivered(0xe00, 18, 0x100);
    after("timer in user mode").delivered(0xe00, 17, 0x100);
}

#[test]
fn frames_are_two_words() {
    let after_trap = after("slots of four bytes");
    after_trap.delivered(0xf00, 5, 0x104);
    for kept in [0xee8..0xef0, 0xef4..0xef8, 0xefc..0xf00] {
        assert!(after_trap.machine.memory[kept].iter().all(|byte| *byte == 0xee));
    }
    let refused = after("second slot refused");
    assert_eq!(refused.regs().stop, Stop::NoFrame);
    assert_eq!((refused.regs().sp, refused.regs().pc), (8, 0x100));
    assert!(refused.memory_is_unchanged());
}

#[test]
fn a_frame_may_lie_over_address_0() {
    let after = after("frame over address 0");
    assert_eq!(after.regs().sp, 0xffff_fff8);
    assert_eq!(after.word(0), 0x104);
    assert_eq!(after.word(0x3ff8), 5);
    // Both walks marked: page 0 by fetch, then write; page 0xfffff by write.
    assert_eq!(after.word(0x2000), 0x0067);
    assert_eq!(after.word(0x2ffc), 0x3067);
    assert_eq!(after.entries(), [(0, 0, true, true), (0xf_ffff, 3, true, true)]);
}

/// The pc's slot is on page 3 and is translated first, the code's on page 2.
#[test]
fn a_frame_may_lie_on_two_pages() {
    let both = after("frame over two pages");
    both.delivered(0x3008, 5, 0x104);
    let kept = (0, 0, true, false);
    assert_eq!(both.entries(), [kept, (3, 3, true, true), (2, 2, true, true)]);
    // Page 2 is the table itself, and lacks W: the first slot's walk stays.
    let refused = after("second slot refused after a walk");
    assert_eq!((refused.regs().stop, refused.regs().vadr), (Stop::NoFrame, 0));
    assert_eq!((refused.regs().sp, refused.regs().pc), (0x3008, 0x100));
    assert_eq!(refused.entries(), [kept, (3, 3, true, true)]);
    assert_eq!([0x3000, 0x200c, 0x2008].map(|at| refused.word(at)), [0, 0x3067, 0x2005]);
}

#[test]
fn four_and_five_walks() {
    let kept = |page: u32, write: bool| (page, page, true, write);
    let four = after("four walks in a step");
    four.delivered(0x5008, 9, 0x104);
    assert_eq!(four.entries(), [kept(0, false), kept(5, true), kept(4, true)]);
    let five = after("five walks in a step");
    five.delivered(0x5008, 8, 0x104);
    assert_eq!(five.entries(), [kept(0, false), kept(3, false), kept(5, true), kept(4, true)]);
    assert_eq!((four.regs().vadr, five.regs().vadr), (0x7001, 0x7001));
    assert_eq!((five.machine.coverage.walks[5], five.regs().b, five.regs().c), (1, 0x3000, 1));
}

#[test]
fn a_frame_is_written_for_the_kernel() {
    let after = after("frame on a page without U");
    after.delivered(0xe00, 21, 0x104);
    assert_eq!(after.entries(), [(0, 0, false, true)]);
    assert_eq!(after.word(0x2000), 0x63);
}

#[test]
fn privilege_comes_before_the_access() {
    for name in ["RTI from user mode, no stack", "PDIR from user mode, beyond"] {
        let after = after(name);
        after.delivered(0xe00, 19, 0x104);
        assert_eq!(after.regs().vadr, 0, "{name}");
    }
}

#[test]
fn read_faults_are_delivered() {
    let kernel = after("FRPAGE in kernel mode");
    kernel.delivered(0xf00, 9, 0x104);
    let user = after("FRPAGE in user mode");
    user.delivered(0xe00, 25, 0x104);
    assert_eq!((kernel.regs().vadr, user.regs().vadr), (0x5006, 0x5006));
}

#[test]
fn returns_from_traps() {
    for name in ["RTI with 0x37", "RTI with 16"] {
        let after = after(name);
        let given = after.given.record.regs.clone();
        let expected = Registers {
            pc: 0x220,
            sp: 0xd00,
            ksp: 0xf10,
            user: true,
            iena: true,
            count: 1,
            ..given
        };
        assert_eq!(*after.regs(), expected);
    }
    let unmarked = after("RTI without the mark");
    let given = unmarked.given.record.regs.clone();
    let expected = Registers { pc: 0x220, sp: 0xf10, iena: true, count: 1, ..given };
    assert_eq!(*unmarked.regs(), expected);
}

#[test]
fn a_return_reads_the_code_first() {
    let after = after("RTI across a page's end");
    let given = after.given.record.regs.clone();
    let cause = Cause::TableAbsent;
    let expected = Registers { stop: Stop::Masked, count: 1, vadr: 0x4000, cause, ..given };
    assert_eq!(*after.regs(), expected);
    assert_eq!(after.word(0x200c), 0x3027);
    assert_eq!(after.entries(), [(0, 0, true, false), (3, 3, true, false)]);
}

#[test]
fn fetch_faults_store_the_fetch_address() {
    for (name, code, pc) in [
        ("fetch beyond memory", 0, 0x1000),
        ("fetch from an absent directory", 7, 0x40_0000),
        ("fetch from an absent page", 7, 0x4000),
        ("fetch through a directory beyond", 0, 0x40_0000),
        ("fetch from a frame beyond", 0, 0x4000),
    ] {
        let after = after(name);
        after.delivered(0xf00, code, pc);
        assert_eq!(after.regs().vadr, pc, "{name}");
    }
    let user = after("fetch without user right");
    user.delivered(0xe00, 23, 0x100);
    assert_eq!(user.regs().vadr, 0x100);
    // The frame's own walk may read what the user may not.
    assert_eq!(user.word(0x2000), 0x0063);
    assert_eq!(user.entries(), [(0, 0, false, true)]);
    assert_eq!(after("fetch through a directory beyond").word(0x1004), 0x4027);
    assert_eq!(after("fetch from a frame beyond").word(0x2010), 0x5027);
}

#[test]
fn pc_wraps() {
    assert_eq!(after("fetch over the last address").regs().pc, 0);
}
