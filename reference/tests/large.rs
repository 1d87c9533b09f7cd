//! What must come of the directed cases with memories of 1 and 2 MiB.

mod common;
use common::after;
use reference::case::Case;
use reference::directed;
use reference::load::load;
use reference::types::Stop;

const M: u32 = 0x20_0000;

#[test]
fn the_size_of_memory() {
    assert_eq!(after("MSIZ of 1 MiB").regs().a, 0x10_0000);
    assert_eq!(after("MSIZ of 2 MiB").regs().a, 0x20_0000);
    assert_eq!(after("a read just below 2 MiB").regs().a, 99);
    let stored = after("a store at 1 MiB");
    assert_eq!([0xf_fff8, 0xf_fffc, 0x10_0000, 0x10_0004].map(|at| stored.word(at)), [0, 7, 7, 0]);
    let beyond = after("a read at 2 MiB");
    assert_eq!((beyond.regs().stop, beyond.regs().vadr), (Stop::Masked, M));
}

#[test]
fn a_load() {
    let file = directed::all().into_iter().find(|case| case.0 == "load into 2 MiB").unwrap().1;
    let Case::Load(given) = file else { panic!("no load") };
    let mut memory = vec![given.fill; given.memory_length];
    let (answer, record) = load(&mut memory, &given.file);
    assert_eq!((answer, record.regs.sp, record.regs.pc), (0, M, 4));
    assert_eq!(memory[..9], [1, 2, 3, 4, 5, 6, 7, 8, 9]);
    assert!(memory[9..].iter().all(|byte| *byte == 0) && memory.len() == M as usize);
}

#[test]
fn frames_at_the_end() {
    after("a frame just below M").delivered(M, 5, 0x104);
    for name in ["a frame just at M", "a frame beyond M"] {
        let refused = after(name);
        assert_eq!((refused.regs().stop, refused.regs().vadr), (Stop::NoFrame, 0), "{name}");
        assert!(refused.memory_is_unchanged());
    }
}

#[test]
fn pdir_at_the_end() {
    assert_eq!(after("PDIR just below M").regs().pdir, M - 4096);
    let beyond = after("PDIR at M");
    assert_eq!((beyond.regs().stop, beyond.regs().vadr), (Stop::Masked, M));
    assert_eq!(beyond.regs().pdir, 0);
}

/// The directory is in the last frame, the table in the one before it.
#[test]
fn tables_in_the_last_frames() {
    let (directory, table) = (M - 0x1000, M - 0x2000);
    let last = after("the last words of high tables");
    assert_eq!(last.regs().a, 88);
    assert_eq!(last.word(directory + 0xffc), table + 0x27);
    assert_eq!(last.word(table + 0xffc), M - 0x3000 + 0x27);
    assert_eq!(last.entries(), [(0, 0, true, false), (0xf_ffff, 0x1fd, true, false)]);
    let frame = after("a frame at M by a table");
    assert_eq!((frame.regs().stop, frame.regs().vadr), (Stop::Masked, 0x1004));
    assert_eq!(frame.word(table + 4), M + 0x67);
    let word = after("a directory word at M");
    assert_eq!((word.regs().stop, word.regs().vadr), (Stop::Masked, 0x40_0004));
    assert_eq!(word.word(directory + 4), M + 0x27);
    let stored = after("a store into the last frame");
    assert_eq!((stored.word(M - 4), stored.word(table + 4)), (9, directory + 0x67));
    assert_eq!(stored.entries()[1], (1, 0x1ff, true, true));
}

/// Pages 2^0 to 2^9 lead to frames 2^0 to 2^9, of which the last is beyond
/// memory; pages 2^10 to 2^19, by the table's first word, to frame 0.
#[test]
fn pages_bit_by_bit() {
    let after = after("pages of one bit");
    let mut entries = vec![(0, 0, true, true)];
    entries.extend((0..9).map(|bit| (1 << bit, 1 << bit, true, false)));
    entries.extend((10..20).map(|bit| (1 << bit, 0, true, false)));
    // The frame of the one fault is on page 0, and makes its entry writable;
    // pages after it are read with D set in the table's first word.
    for entry in &mut entries[10..] {
        entry.3 = true;
    }
    assert_eq!(after.entries(), entries);
    assert_eq!(after.regs().vadr, (0x1000 << 9) + 0x400);
    assert_eq!(after.regs().pc, 0x100 + 4 * 3 * 20);
    // Word 0x400 of frame 0 is not the program's: it ends before.
    assert_eq!(after.regs().b, 0);
}

/// Frames 2^0 to 2^8 are in memory, those from 2^9 on are not.
#[test]
fn frames_bit_by_bit() {
    let after = after("frames of one bit");
    let frames: Vec<u32> = after.entries()[1..].iter().map(|entry| entry.1).collect();
    assert_eq!(frames, (0..9).map(|bit| 1 << bit).collect::<Vec<u32>>());
    assert_eq!(after.regs().pc, 0x100 + 4 * 2 * 20);
    // b keeps the page of a read that faults.
    assert_eq!((after.regs().vadr, after.regs().b), (20 * 0x1000 + 0x400, 20 * 0x1000));
}
