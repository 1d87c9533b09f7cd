//! A machine in a file: the bytes of one worked out by hand, and what is refused
//! at each edge of document 02's item 5.

use reference::snapshot::read::{read, read_answer};
use reference::snapshot::save::{save, save_answer};
use reference::snapshot::Lent;
use reference::types::{Buffer, Cause, Entry, Record, Registers, Stop};

/// A machine of one page, two entries and three console bytes of five.
fn record() -> Record {
    let regs = Registers {
        a: 0x0102_0304,
        b: 0x1112_1314,
        c: 0x2122_2324,
        sp: 0x3132_3338,
        usp: 0x4142_4340,
        ksp: 0x5152_5358,
        pc: 0x6162_6364,
        ivec: 0x7172_7374,
        pdir: 0,
        vadr: 0x8182_8384,
        timer: 0x9192_9394,
        timeout: 0xa1a2_a3a4,
        kbchar: 0xb1b2_b3b4,
        user: true,
        iena: false,
        paging: true,
        waiting: false,
        stop: Stop::NoFrame,
        count: 0x0172_7374_7576_7778,
        keys: 9,
        written: 3,
        key_pending: false,
        timer_pending: true,
        cause: Cause::NoWriteRight,
        mode: true,
        f: 0xfff4_c1c2_c3c4_c5c6,
        g: 0xd1d2_d3d4_d5d6_d7d8,
    };
    let mut buffer = Buffer { count: 2, ..Buffer::default() };
    buffer.slots[0] = Entry { page: 0xf_abcd, frame: 0, user: true, write: false, origin: None };
    buffer.slots[1] = Entry { page: 7, frame: 0, user: false, write: true, origin: None };
    // A slot past the count means nothing.
    buffer.slots[2] = Entry { page: 7, frame: 99, user: true, write: true, origin: None };
    Record { regs, buffer }
}

fn memory() -> Vec<u8> {
    let mut memory = vec![0; 4096];
    memory[0] = 0x23;
    memory[4095] = 0x77;
    memory
}

const CONSOLE: &[u8; 5] = b"Feed!";

/// The file of `record`, byte by byte: 28 bytes of header, 112 of registers, two
/// entries of 16, three console bytes, memory.
#[rustfmt::skip]
fn file() -> Vec<u8> {
    let mut file = vec![
        // Pages, entries, console bytes.
        1, 0, 0, 0,  2, 0, 0, 0,  3, 0, 0, 0,
        // Offsets: 28, 28 + 112 = 140, 140 + 32 = 172, 172 + 3 = 175.
        28, 0, 0, 0,  140, 0, 0, 0,  172, 0, 0, 0,  175, 0, 0, 0,
        // a, b, c, sp, usp, ksp, pc, ivec, pdir, vadr, timer, timeout, kbchar.
        0x04, 0x03, 0x02, 0x01,
        0x14, 0x13, 0x12, 0x11,
        0x24, 0x23, 0x22, 0x21,
        0x38, 0x33, 0x32, 0x31,
        0x40, 0x43, 0x42, 0x41,
        0x58, 0x53, 0x52, 0x51,
        0x64, 0x63, 0x62, 0x61,
        0x74, 0x73, 0x72, 0x71,
        0, 0, 0, 0,
        0x84, 0x83, 0x82, 0x81,
        0x94, 0x93, 0x92, 0x91,
        0xa4, 0xa3, 0xa2, 0xa1,
        0xb4, 0xb3, 0xb2, 0xb1,
        // user, iena, paging, waiting; the marks of key and timer.
        1, 0, 0, 0,  0, 0, 0, 0,  1, 0, 0, 0,  0, 0, 0, 0,
        0, 0, 0, 0,  1, 0, 0, 0,
        // Stop reason, cause, step count.
        3, 0, 0, 0,  6, 0, 0, 0,
        0x78, 0x77, 0x76, 0x75, 0x74, 0x73, 0x72, 0x01,
        // Mode, f, g.
        1, 0, 0, 0,
        0xc6, 0xc5, 0xc4, 0xc3, 0xc2, 0xc1, 0xf4, 0xff,
        0xd8, 0xd7, 0xd6, 0xd5, 0xd4, 0xd3, 0xd2, 0xd1,
        // Page, frame, user right, write right.
        0xcd, 0xab, 0x0f, 0,  0, 0, 0, 0,  1, 0, 0, 0,  0, 0, 0, 0,
        7, 0, 0, 0,           0, 0, 0, 0,  0, 0, 0, 0,  1, 0, 0, 0,
        b'F', b'e', b'e',
        0x23,
    ];
    assert_eq!(file.len(), 175 + 1);
    file.resize(175 + 4095, 0);
    file.push(0x77);
    file
}

/// The answer, the record, and memory and console, both full of 0xee before.
fn read_into(file: &[u8], memory: usize, console: usize) -> (u32, Record, Vec<u8>, Vec<u8>) {
    let (mut memory, mut console) = (vec![0xee; memory], vec![0xee; console]);
    let (answer, record) = read(file, &mut memory, &mut console);
    (answer, record, memory, console)
}

fn answer(file: &[u8]) -> u32 {
    let (answer, record, memory, console) = read_into(file, 4096, 5);
    if answer != 0 {
        assert_eq!(record, Record::default());
        assert!(memory == [0xee; 4096] && console == [0xee; 5]);
    }
    answer
}

fn with_word(at: usize, value: u32) -> Vec<u8> {
    let mut file = file();
    file[at..at + 4].copy_from_slice(&value.to_le_bytes());
    file
}

#[test]
fn saved_byte_by_byte() {
    let mut lent = vec![0xee; file().len()];
    assert_eq!(save(&record(), &memory(), CONSOLE, &mut lent), (0, 4271));
    assert_eq!(lent, file());
    // Keys taken are not in the file.
    let mut other = record();
    other.regs.keys = 0;
    let mut again = vec![0; 4271];
    assert_eq!(save(&other, &memory(), CONSOLE, &mut again), (0, 4271));
    assert_eq!(again, file());
}

#[test]
fn later_file_bytes_stay() {
    let mut lent = vec![0xee; 4280];
    assert_eq!(save(&record(), &memory(), CONSOLE, &mut lent), (0, 4271));
    assert_eq!(lent[..4271], file());
    assert_eq!(lent[4271..], [0xee; 9]);
}

#[test]
fn a_file_too_short_to_save_into_stays() {
    for length in [0, 27, 28, 4270] {
        let mut lent = vec![0xee; length];
        assert_eq!(save(&record(), &memory(), CONSOLE, &mut lent), (13, 0));
        assert_eq!(lent, vec![0xee; length]);
    }
}

#[test]
fn read_byte_by_byte() {
    let mut expected = record();
    expected.regs.keys = 0;
    expected.buffer.slots[2] = Entry::default();
    for lent in [3, 4, 5, 4096] {
        let (answer, record, read_memory, console) = read_into(&file(), 4096, lent);
        assert_eq!((answer, &record), (0, &expected));
        assert_eq!(read_memory, memory());
        assert_eq!(console[..3], CONSOLE[..3]);
        assert!(console[3..].iter().all(|byte| *byte == 0xee));
    }
}

#[test]
fn lengths_that_are_not_exact() {
    for (length, number) in [(0, 13), (27, 13), (28, 15), (175, 15), (4270, 15), (4272, 15)] {
        let mut other = file();
        other.resize(length, 0);
        assert_eq!(answer(&other), number, "{length}");
    }
}

#[test]
fn counts_unlike_what_is_lent() {
    for pages in [0, 2, 1 << 20, (1 << 20) + 1, u32::MAX] {
        assert_eq!(answer(&with_word(0, pages)), 14, "{pages} pages");
    }
    for entries in [65, 1 << 28, (1 << 28) + 2, u32::MAX] {
        assert_eq!(answer(&with_word(4, entries)), 14, "{entries} entries");
    }
    for bytes in [6, 1 << 31, u32::MAX] {
        assert_eq!(answer(&with_word(8, bytes)), 14, "{bytes} console bytes");
    }
    assert_eq!(read_into(&file(), 4096, 2).0, 14);
    assert_eq!(read_into(&file(), 8192, 5).0, 14);
    for (at, other) in [(4, 1), (4, 3), (4, 64), (8, 2), (8, 4), (8, 5)] {
        assert_eq!(answer(&with_word(at, other)), 15, "count at {at}: {other}");
    }
}

#[test]
fn offsets_that_do_not_follow() {
    for (at, right) in [(12, 28), (16, 140), (20, 172), (24, 175u32)] {
        for other in [0, right - 1, right + 1, right + 4, right + 0x1_0000, u32::MAX] {
            assert_eq!(answer(&with_word(at, other)), 15, "offset at {at}: {other}");
        }
    }
}

#[test]
fn registers_that_are_refused() {
    let words = [
        (28 + 12, 4, "sp"),
        (28 + 16, 4, "usp"),
        (28 + 20, 4, "ksp"),
        (28 + 24, 2, "pc"),
        (28 + 28, 2, "ivec"),
        (28 + 32, 2048, "pdir"),
        (28 + 32, 4096, "pdir at M"),
        (28 + 76, 4, "stop reason"),
        (28 + 76, u32::MAX, "stop reason"),
        (28 + 80, 8, "cause"),
        (28 + 80, u32::MAX, "cause"),
        (28 + 88, 0x8000_0000, "step count"),
        (28 + 92, 2, "mode"),
        (28 + 92, 256, "mode"),
        (28 + 92, u32::MAX, "mode"),
    ];
    for (at, value, name) in words {
        assert_eq!(answer(&with_word(at, value)), 16, "{name} {value}");
    }
    for flag in 0..6 {
        for value in [2, 256, u32::MAX] {
            assert_eq!(answer(&with_word(28 + 52 + 4 * flag, value)), 16, "flag {flag}");
        }
    }
}

#[test]
fn entries_that_are_refused() {
    let words = [
        (140, 1 << 20, "page 2^20"),
        (144, 1, "frame M/4,096"),
        (148, 2, "user right"),
        (152, 2, "write right"),
        (156, 0xf_abcd, "a page twice"),
        (156, u32::MAX, "page 2^32 - 1"),
        (168, u32::MAX, "write right"),
    ];
    for (at, value, name) in words {
        assert_eq!(answer(&with_word(at, value)), 16, "{name}");
    }
}

#[test]
fn what_nothing_refuses() {
    let words = [
        (28 + 36, 0, "vadr 0 with a cause"),
        (28 + 40, u32::MAX, "timer above timeout"),
        (28 + 48, 0, "kbchar"),
        (28 + 48, 256, "kbchar"),
        (28 + 64, 1, "waiting in a stopped machine"),
        (28 + 68, 1, "both marks"),
        (28 + 76, 0, "running"),
        (28 + 80, 0, "vadr without a cause"),
        (28 + 80, 7, "cause 7"),
        (28 + 88, 0x7fff_ffff, "step count"),
        (28 + 92, 0, "f and g in the old mode"),
        (28 + 100, 0x7ff0_0000, "a signalling NaN in f"),
        (28 + 108, 0xffff_ffff, "a NaN in g"),
        (140, (1 << 20) - 1, "page 2^20 - 1"),
    ];
    for (at, value, name) in words {
        assert_eq!(answer(&with_word(at, value)), 0, "{name}");
    }
}

#[test]
fn a_refused_read_leaves_all() {
    for (memory, file) in
        [(4095, file()), (4096, file()[..27].to_vec()), (4096, with_word(28 + 24, 2))]
    {
        let (answer, record, read_memory, console) = read_into(&file, memory, 5);
        assert_ne!(answer, 0);
        assert_eq!(record, Record::default());
        assert_eq!(record.regs.kbchar, 0);
        assert!(read_memory.iter().chain(&console).all(|byte| *byte == 0xee));
    }
}

#[test]
fn lower_numbers_win_on_reading() {
    let lent = Lent { memory: 4097, console: 2, file: 0 };
    assert_eq!(read_answer(&file()[..27], &lent, None), 1);
    let lent = Lent { memory: 4096, ..lent };
    assert_eq!(read_answer(&file()[..27], &lent, None), 13);
    let unaligned = with_word(28 + 24, 2);
    assert_eq!(read_answer(&unaligned[..4000], &lent, None), 14);
    let lent = Lent { console: 3, ..lent };
    assert_eq!(read_answer(&unaligned[..4000], &lent, None), 15);
    assert_eq!(read_answer(&unaligned, &lent, None), 16);
}

/// With lengths alone, so that nothing of that length is lent.
#[test]
fn lower_numbers_win_on_saving() {
    let mut bad = record();
    bad.regs.pc = 2;
    bad.buffer.count = 65;
    bad.regs.written = 6;
    let lent = Lent { memory: 4095, console: 5, file: 0 };
    assert_eq!(save_answer(&bad, &lent, None), 1);
    let lent = Lent { memory: 4096, ..lent };
    assert_eq!(save_answer(&bad, &lent, None), 2);
    bad.regs.pc = 4;
    assert_eq!(save_answer(&bad, &lent, None), 3);
    bad.buffer.count = 2;
    assert_eq!(save_answer(&bad, &lent, None), 5);
    bad.regs.written = 5;
    assert_eq!(save_answer(&bad, &lent, None), 13);
    assert_eq!(save_answer(&bad, &Lent { file: 4272, ..lent }, None), 13);
    assert_eq!(save_answer(&bad, &Lent { file: 4273, ..lent }, None), 0);
}

/// 15 comes where memory begins at 2^32 or later, in a file that is as long.
#[test]
fn an_offset_of_two_to_32() {
    let mut large = record();
    large.regs.written = (1 << 32) - 172 - 1;
    let lent = Lent { memory: 4096, console: 1 << 33, file: 1 << 34 };
    assert_eq!(save_answer(&large, &lent, None), 0);
    large.regs.written += 1;
    assert_eq!(save_answer(&large, &lent, None), 15);
    let short = Lent { file: (1 << 32) + 4095, ..lent };
    assert_eq!(save_answer(&large, &short, None), 13);
    // On reading no word can hold such an offset.
    let lent = Lent { console: 1 << 33, ..lent };
    for (bytes, memory_at) in [(u32::MAX - 172, u32::MAX), (u32::MAX - 171, 0)] {
        let mut file = with_word(8, bytes);
        file[24..28].copy_from_slice(&memory_at.to_le_bytes());
        assert_eq!(read_answer(&file, &lent, None), 15);
    }
}
