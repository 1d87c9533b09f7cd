//! What must come of the directed cases on walks, rights and the buffer.

mod common;
use common::{after, after_runs};
use reference::types::{Cause, Stop};

const KEPT: (u32, u32, bool, bool) = (0, 0, true, false);

/// A case that ends with a fault while iena = 0: vadr, cause, and words after it.
fn faults(name: &str, vadr: u32, cause: Cause, words: &[(u32, u32)]) {
    let after = after(name);
    assert_eq!(after.regs().stop, Stop::Masked, "{name}");
    assert_eq!((after.regs().vadr, after.regs().cause), (vadr, cause), "{name}");
    for (at, word) in words {
        assert_eq!(after.word(*at), *word, "{name}");
    }
    assert_eq!(after.entries(), [KEPT], "{name}");
}

#[test]
fn marks_of_faulting_walks() {
    use Cause::*;
    faults("directory absent", 0x40_0003, DirectoryAbsent, &[(0x1004, 0)]);
    faults("directory word without P", 0x40_0000, DirectoryAbsent, &[(0x1004, 0x2006)]);
    faults("directory far beyond memory", 0x40_0000, DirectoryBeyond, &[(0x1004, 0xffff_f027)]);
    faults("frame far beyond memory", 0x4002, FrameBeyond, &[(0x2010, 0xffff_f027)]);
    faults("directory beyond memory", 0x40_0000, DirectoryBeyond, &[(0x1004, 0x4027)]);
    faults("table word absent", 0x4000, TableAbsent, &[(0x1000, 0x2027), (0x2010, 0x3006)]);
    faults("no W in the table word", 0x3000, NoWriteRight, &[(0x200c, 0x3005)]);
    let words = [(0x1004, 0x2025), (0x200c, 0x3007)];
    faults("no W in the directory word", 0x40_3000, NoWriteRight, &words);
    faults("frame beyond, by a write", 0x4002, FrameBeyond, &[(0x2010, 0x4067)]);
    faults("frame beyond, by a read", 0x4002, FrameBeyond, &[(0x2010, 0x4027)]);
    faults("vadr of an odd half", 0x7003, TableAbsent, &[(0x1000, 0x2027)]);
}

#[test]
fn other_bits_and_the_last_page() {
    let bits = after("other bits of words are kept");
    assert_eq!(bits.word(0x200c), 0x3fbf);
    assert_eq!(bits.entries(), [KEPT, (3, 3, true, false)]);
    let last = after("the last page");
    assert_eq!(last.regs().a, 77);
    assert_eq!(last.entries(), [KEPT, (0xf_ffff, 3, true, false)]);
}

#[test]
fn rights_of_entries() {
    assert_eq!(after("read with D set").entries()[1], (3, 3, true, true));
    assert_eq!(after("read with D clear").entries()[1], (3, 3, true, false));
    assert_eq!(after("read with D set, no W").entries()[1], (3, 3, true, false));
    assert_eq!(after("read with D set, no W above").entries()[1], (0x403, 3, true, false));
    assert_eq!(after("kernel read without U above").entries()[1], (0x403, 3, false, false));
    assert_eq!(after("kernel read without U").entries()[1], (3, 3, false, false));
    assert_eq!(after("kernel write without U").entries()[1], (3, 3, false, true));
    let above = after("no D in the directory word");
    assert_eq!((above.word(0x1004), above.word(0x200c)), (0x2027, 0x3067));
    let write = after("user write");
    assert_eq!(write.entries()[1], (3, 3, true, true));
    assert_eq!(write.word(0x200c), 0x3067);
    let cause = Cause::NoUserRight;
    faults("user read without U", 0x3000, cause, &[(0x200c, 0x3003)]);
    let words = [(0x1004, 0x2023), (0x200c, 0x3007)];
    faults("user read without U above", 0x40_3000, cause, &words);
    after("user write without W").delivered(0xe00, 24, 0x104);
    after("kernel write without W").delivered(0xf00, 8, 0x104);
}

#[test]
fn entries_are_replaced_in_place() {
    let name = "entries keep their positions";
    let read = after_runs(name, 1);
    assert_eq!(read.entries(), [KEPT, (3, 3, true, false), (2, 2, true, false)]);
    let written = after(name);
    assert_eq!(written.entries(), [KEPT, (3, 3, true, true), (2, 2, true, false)]);
    // The second store hits; both went to page 3, whose word has D since.
    assert_eq!(written.word(0x200c), 0x3067);
}

#[test]
fn an_entry_that_does_not_serve_is_walked_for_again() {
    let user = after("user meets a kernel entry");
    assert_eq!(user.entries(), [(3, 3, true, false), KEPT]);
    assert_eq!(user.word(0x200c), 0x3027);
    for name in ["user write meets a kernel entry", "user write meets a read entry"] {
        let write = after(name);
        assert_eq!(write.entries(), [(3, 3, true, true), KEPT], "{name}");
        assert_eq!(write.word(0x200c), 0x3067, "{name}");
    }
    let fetch = after("user fetch meets a kernel entry");
    assert_eq!((fetch.entries(), fetch.word(0x2000)), (vec![KEPT], 0x27));
    assert_eq!(after("fetch with D set").entries(), [(0, 0, true, true)]);
    let write = after("write meets a read entry");
    assert_eq!(write.entries(), [(3, 3, true, true), KEPT]);
    assert_eq!(write.word(0x200c), 0x3067);
    let refused = after("a refused walk leaves the entry");
    assert_eq!(refused.regs().stop, Stop::Masked);
    assert_eq!(refused.entries(), [(3, 3, false, true), (0, 0, true, true)]);
    let stale = after("a stale entry serves");
    assert_eq!(stale.word(0x2000), 0x3000);
    assert_eq!(stale.entries(), [(3, 2, true, true), KEPT]);
}

#[test]
fn pdir_and_spag_empty_the_buffer() {
    for name in ["PDIR with the same value", "SPAG with the same value", "SPAG off"] {
        assert_eq!(after(name).entries(), [], "{name}");
    }
    assert_eq!(after("PDIR with the same value").regs().pdir, 0x1000);
    let elsewhere = after("PDIR to another directory");
    assert_eq!((elsewhere.regs().pdir, elsewhere.regs().a), (0x3000, 2));
    assert_eq!((elsewhere.entries(), elsewhere.word(0x3000)), (vec![(0, 3, true, false)], 0x3027));
    assert_eq!(after("PDIR at the last page").regs().pdir, 0x3000);
    let far = after("PDIR far beyond");
    assert_eq!((far.regs().stop, far.regs().vadr), (Stop::Masked, 0xffff_f000));
    assert!(after("SPAG by a low byte of 0").regs().paging);
    let beyond = after("PDIR beyond memory");
    assert_eq!((beyond.regs().stop, beyond.regs().vadr), (Stop::Masked, 0x4000));
    assert_eq!(beyond.entries(), [(9, 3, true, true), KEPT]);
    // pdir 0, so page 0's directory word is the word at 0: absent.
    let even = after("SPAG by an even number");
    assert!(even.regs().paging);
    assert_eq!((even.regs().stop, even.regs().vadr), (Stop::Masked, 0x104));
}

#[test]
fn paging_off() {
    assert_eq!(after("paging off keeps entries").entries(), [(0, 0, true, true)]);
    let user = after("user mode with paging off");
    assert_eq!((user.regs().stop, user.regs().pc), (Stop::Running, 0x104));
}

#[test]
fn sixty_four_entries() {
    assert_eq!(after("64 held, a new page").entries(), [(3, 3, true, false)]);
    let held = after("64 held, a held page");
    assert_eq!((held.entries().len(), held.regs().b), (64, 0x0007));
    let replaced = after("64 held, a page replaced");
    assert_eq!(replaced.entries().len(), 64);
    assert_eq!(replaced.entries()[1], (0x100, 3, true, false));
    assert_eq!(replaced.entries()[2], (0x101, 1, false, true));
    let faulted = after("64 held, a faulting walk");
    assert_eq!((faulted.entries().len(), faulted.regs().vadr), (64, 0x7000));
    let last = after("63 held, a new page");
    assert_eq!((last.entries().len(), last.entries()[63]), (64, (3, 3, true, false)));
}

#[test]
fn a_byte_is_read_before_the_next_walk() {
    let copied = after("MCPY of the word it walks");
    assert_eq!((copied.word(0x3010), copied.word(0x200c)), (0x07, 0x3067));
    let compared = after("MCMP of the word it walks");
    assert_eq!((compared.regs().a, compared.regs().c), (0x3011, 0));
    assert_eq!((compared.regs().pc, compared.word(0x200c)), (0x100, 0x3027));
}

#[test]
fn marks_come_before_the_access_itself() {
    assert_eq!(after("LX of its own table word").regs().a, 0x2027);
    assert_eq!(after("SX into its own table word").word(0x2008), 0x3007);
    assert_eq!(after("SXB into its own table word").word(0x2008), 0x3067);
}

#[test]
fn stores_of_demand_3s_kind() {
    let read = after("self-mapped read");
    assert_eq!((read.regs().a, read.machine.held_store), (0x1027, None));
    let name = "self-mapped store";
    let stored = after_runs(name, 1);
    assert_eq!((stored.word(0x1000), stored.machine.held_store), (0x0007, Some(1)));
    assert_eq!(stored.entries(), [(0, 1, true, true)]);
    // The entry still serves the next fetch, at 0x1104.
    assert_eq!(after(name).regs().pc, 0x108);
    let frame = after_runs("a frame into held words", 1);
    assert_eq!((frame.word(0x2000), frame.word(0x2008)), (5, 0x104));
    assert_eq!(frame.machine.held_store, Some(1));
}
