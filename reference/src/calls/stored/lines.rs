//! Listed lines read back, and lines that are not listed.

use super::{Named, IMMS};
use crate::calls::near::{near_misses, Listed};
use crate::calls::Call;
use crate::opcodes::sets::{ILLEGAL, LEGAL};
use crate::words::instruction;
use crate::worked::op;

pub fn calls() -> Vec<Named> {
    [worked(), every_opcode(), data(), near(), edited(), other()].concat()
}

fn read(name: impl Into<String>, line: impl AsRef<[u8]>) -> Named {
    (name.into(), Call::read(line))
}

fn text(address: u32, word: u32) -> Listed {
    Listed { address, word, data: false }
}

fn listed(listed: Listed) -> Named {
    read("listed", listed.line())
}

/// Written by hand; which of them are listed stands in `tests/unlist.rs`.
const WORKED: [&str; 36] = [
    "00000000 00000023 LI 0",
    "00000004 927c0024 LHI -7177216",
    "00000004 927c0024 LHI 9600000",
    "00000008 00000000 HALT 0",
    "00000008 00000000 HALT",
    "00000008 00000000 data",
    "00000000 00000000 data",
    "00000000 000000ff data",
    "00000004 000000ff data",
    "00000014 ffffe805 JSR 00000000",
    "00000014 ffffe805 JSR fffffffc",
    "00000014 ffffe805 JSR -24",
    "00000010 ffffe805 JSR 00000000",
    "0000000c 80000003 JMP ff800010",
    "0000000c 80000003 JMP 00800010",
    "00000000 00000303 JMP 00000007",
    "00000000 00000303 JMP 00000004",
    "00000000 00000304 JMPI 3",
    "00000000 00000304 JMPI 00000007",
    "00000010 0000129b NOP",
    "00000010 0000129b NOP 18",
    "00000010 0000129b NOP 0",
    "00000010 0000059e PSHI 5",
    "00000010 0000059e PSHI",
    "00000010 000005a7 TIME 5",
    "00000010 000005a7 TIME",
    "00000010 00000102 LEV 1",
    "00000010 00000198 RTI",
    "00000010 00000106 JSRA",
    "00000010 00000113 data",
    "00000010 00000113 LLD 1",
    "00007ffc 00000023 LI 0",
    "00008000 00000023 LI 0",
    "00000002 00000023 LI 0",
    "00007ffc ffffff90 BGEU 00007fff",
    "refused 7",
];

fn worked() -> Vec<Named> {
    WORKED.iter().map(|line| read("worked", line)).collect()
}

/// Each legal opcode with each operand, at an address that differs by opcode.
fn every_opcode() -> Vec<Named> {
    let addresses = [0, 4, 0x14, 0x1000, 0x7ffc];
    let at = |code: u8, nth: usize| addresses[(nth + usize::from(code)) % 5];
    let word = |code: u8, imm: i32| instruction(code, imm as u32);
    let line = |code: u8, nth: usize, imm: i32| listed(text(at(code, nth), word(code, imm)));
    let lines = |code: u8| (0..5).map(move |nth| line(code, nth, IMMS[nth]));
    LEGAL.iter().flat_map(|code| lines(*code)).collect()
}

/// Every byte as data at 4, every illegal one at 0, and some legal ones there.
fn data() -> Vec<Named> {
    let data = |address: u32, code: u8| format!("{address:08x} {:08x} data", op_word(code));
    let mut list: Vec<Named> = (0..=255).map(|code| read("data at 4", data(4, code))).collect();
    list.extend(ILLEGAL.iter().map(|code| read("illegal, data at 0", data(0, *code))));
    list.extend(LEGAL.iter().step_by(9).map(|code| read("legal, data at 0", data(0, *code))));
    list.extend(LEGAL.iter().step_by(9).map(|code| read("data at the end", data(0x7ffc, *code))));
    list
}

/// A word with this opcode byte and some operand.
fn op_word(code: u8) -> u32 {
    instruction(code, u32::from(code) << 3)
}

/// Lines of each form, at the ends of memory and between, one of them of 31
/// bytes and one with letters in every number.
fn samples() -> Vec<Listed> {
    let data = |address, word| Listed { address, word, data: true };
    vec![
        text(0, op("LI", 0)),
        text(4, op("LHI", 0x92_7c00)),
        text(8, op("HALT", 0)),
        text(0x10, op("PSHI", -5)),
        text(0x10, op("TIME", 7)),
        text(0x1c, op("NOP", 0x12)),
        text(0x14, 0xffff_e805),
        text(0xc, 0x8000_0003),
        text(0xabc, op("BGEU", 0xab_cdef)),
        text(0x7ffc, op("JMPI", 3)),
        text(0x7ffc, op("BNZ", -1)),
        text(0, op("MSIZ", 0)),
        data(4, op("LI", 0)),
        data(0x7ffc, op("JMP", -4)),
        data(0xab0, 0xdead_beef),
        text(0, op("LLD", 1)),
    ]
}

fn near() -> Vec<Named> {
    let misses = |listed: Listed| near_misses(listed).into_iter();
    samples().into_iter().flat_map(misses).map(|(name, line)| read(name, line)).collect()
}

/// What each byte of a line is changed to: digits, a space, the bytes next to
/// digits.
const OTHERS: &[u8] = b"0a /:`g";

/// Every cut of a line, and every byte of it changed, removed and doubled.
fn edited() -> Vec<Named> {
    let mut list = Vec::new();
    for nth in [1, 5, 8, 14] {
        let line = samples()[nth].line().into_bytes();
        for at in 0..line.len() {
            let byte = line[at];
            list.push(read("cut", &line[..at]));
            let near = [byte ^ 1, byte ^ 0x20, byte | 0x80];
            for other in near.iter().chain(OTHERS).filter(|other| **other != byte) {
                list.push(read("a byte changed", spliced(&line, at, 1, &[*other])));
            }
            list.push(read("a byte removed", spliced(&line, at, 1, &[])));
            list.push(read("a byte doubled", spliced(&line, at, 0, &[byte])));
        }
    }
    list
}

/// `line` with other bytes in place of `count` from `at` on.
fn spliced(line: &[u8], at: usize, count: usize, other: &[u8]) -> Vec<u8> {
    [&line[..at], other, &line[at + count..]].concat()
}

/// Nothing of a listing, in many lengths.
fn other() -> Vec<Named> {
    let mut list: Vec<Named> =
        (6..=12).map(|number| read("refused", format!("refused {number}"))).collect();
    list.push(read("a run's line", "stop 1 steps 3 a 9600000 b 0 c 0 sp 32768 pc 12"));
    for length in [0, 1, 8, 9, 16, 17, 18, 22, 30, 31, 32, 33, 63, 64, 65, 255, 256, 257, 300] {
        for byte in [b' ', b'0', b'\n', 0, 0xff] {
            list.push(read(format!("{length} bytes"), vec![byte; length]));
        }
    }
    let longest = text(0x7ffc, op("BGEU", -1)).line().into_bytes();
    for length in [32, 33, 63, 64, 65, 256, 300] {
        let mut line = longest.clone();
        line.resize(length, b'0');
        list.push(read(format!("{length} bytes, the first 31 listed"), line));
    }
    list
}
