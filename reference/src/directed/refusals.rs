//! Every refusal of run and load alone, some together, and their edges.

use super::Named;
use crate::case::{Case, Load, Runs, MAX_MEMORY};
use crate::load::{executable, MAGIC};
use crate::types::{Entry, Registers, Stop, MAX_BUDGET};
use crate::worked::op;

pub fn cases() -> Vec<Named> {
    let runs = run_cases().into_iter().map(|(name, runs)| (name.to_string(), runs));
    let runs = runs.chain(run_pairs()).map(|(name, runs)| (name, runs.into()));
    let loads = load_cases().into_iter().map(|(name, load)| (name.to_string(), load));
    let loads = loads.chain(load_pairs()).map(|(name, load)| (name, Case::Load(load)));
    runs.chain(loads).collect()
}

/// A run that is accepted; each case changes something.
fn changed(change: fn(&mut Runs)) -> Runs {
    let regs = Registers { sp: 0x1000, pdir: 0x1000, ..Registers::default() };
    let mut runs = Runs::new(8192, regs)
        .words(0, &[op("LI", 7)])
        .bytes(0x1000, &[9; 8])
        .console(&[1, 2, 3])
        .entry(5, 1, true, false)
        .entry(6, 0, false, true)
        .run_keys(1, &[(3, 65), (3, 66), (9, 67)]);
    change(&mut runs);
    runs
}

fn run_cases() -> Vec<(&'static str, Runs)> {
    [accepted(), records(), buffers(), lists(), stopped()].concat()
}

#[rustfmt::skip]
fn accepted() -> Vec<(&'static str, Runs)> {
    vec![
        ("accepted", changed(|_| {})),
        ("accepted with budget 0", changed(|runs| runs.runs[0].budget = 0)),
        ("accepted stopped", changed(|runs| runs.record.regs.stop = Stop::NoFrame)),
        ("accepted stopped with 1", changed(|runs| runs.record.regs.stop = Stop::Halted)),
        ("accepted stopped with 2", changed(|runs| runs.record.regs.stop = Stop::Masked)),
        ("accepted with all keys taken", changed(|runs| runs.record.regs.keys = 3)),
        ("accepted with a full console", changed(|runs| runs.record.regs.written = 3)),
        ("accepted at step 2^63 - 1", changed(|runs| runs.record.regs.count = (1 << 63) - 1)),
        ("accepted with the last page held", changed(|runs| {
            runs.record.buffer.slots[1] = Entry { page: 0xf_ffff, frame: 1, ..Entry::default() };
        })),
        ("accepted with keys that rise in their high half", changed(|runs| {
            runs.runs[0].keys[2].step = 1 << 32;
        })),
        ("accepted with keys from 2^63 on", changed(|runs| runs.runs[0].keys[2].step = 1 << 63)),
        ("accepted with budget 1,000,000", changed(|runs| {
            runs.memory[..4].copy_from_slice(&op("JMP", -4).to_le_bytes());
            runs.runs[0].budget = MAX_BUDGET;
        })),
        ("slots past the count", changed(|runs| {
            runs.record.buffer.slots[2] = Entry { page: u32::MAX, ..Entry::default() };
        })),
    ]
}

#[rustfmt::skip]
fn records() -> Vec<(&'static str, Runs)> {
    vec![
        ("1 by M = 0", changed(|runs| runs.memory.clear())),
        ("1 by M = 4,095", changed(|runs| runs.memory.truncate(4095))),
        ("1 by M = 4,097", changed(|runs| runs.memory.truncate(4097))),
        ("1 by M = 6,144", changed(|runs| runs.memory.truncate(6144))),
        ("2 by pc", changed(|runs| runs.record.regs.pc = 2)),
        ("2 by ivec", changed(|runs| runs.record.regs.ivec = 1)),
        ("2 by an even ivec", changed(|runs| runs.record.regs.ivec = 2)),
        ("2 by sp", changed(|runs| runs.record.regs.sp = 4)),
        ("2 by usp", changed(|runs| runs.record.regs.usp = 4)),
        ("2 by ksp", changed(|runs| runs.record.regs.ksp = 2)),
        ("2 by a ksp for words", changed(|runs| runs.record.regs.ksp = 4)),
        ("2 by pdir's low bits", changed(|runs| runs.record.regs.pdir = 0x800)),
        ("2 by pdir not below M", changed(|runs| runs.record.regs.pdir = 8192)),
        ("2 by a pdir far beyond", changed(|runs| runs.record.regs.pdir = 0xffff_f000)),
        ("2 by step count", changed(|runs| runs.record.regs.count = 1 << 63)),
    ]
}

/// 64 good slots.
fn filled(runs: &mut Runs) {
    for (page, slot) in runs.record.buffer.slots.iter_mut().enumerate() {
        *slot = Entry { page: page as u32, frame: page as u32 % 2, ..Entry::default() };
    }
    runs.record.buffer.count = 64;
}

#[rustfmt::skip]
fn buffers() -> Vec<(&'static str, Runs)> {
    vec![
        ("accepted with 64 entries", changed(filled)),
        ("3 by 65 entries of which 64 are good", changed(|runs| {
            filled(runs);
            runs.record.buffer.count = 65;
        })),
        ("3 by a count of 258", changed(|runs| runs.record.buffer.count = 258)),
        ("3 by a count of 65,538", changed(|runs| runs.record.buffer.count = 65_538)),
        ("3 by the first page and the last", changed(|runs| {
            filled(runs);
            runs.record.buffer.slots[63].page = 0;
        })),
        ("3 by the first page and the third", changed(|runs| {
            runs.record.buffer.slots[2] = Entry { page: 5, ..Entry::default() };
            runs.record.buffer.count = 3;
        })),
        ("3 by the last frame", changed(|runs| {
            filled(runs);
            runs.record.buffer.slots[63].frame = 2;
        })),
        ("3 by a page far beyond", changed(|runs| runs.record.buffer.slots[0].page = u32::MAX)),
        ("3 by a frame far beyond", changed(|runs| runs.record.buffer.slots[0].frame = u32::MAX)),
        ("3 by count", changed(|runs| runs.record.buffer.count = 65)),
        ("3 by page", changed(|runs| runs.record.buffer.slots[1].page = 1 << 20)),
        ("3 by frame", changed(|runs| runs.record.buffer.slots[1].frame = 2)),
        ("3 by a page twice", changed(|runs| runs.record.buffer.slots[1].page = 5)),
    ]
}

#[rustfmt::skip]
fn lists() -> Vec<(&'static str, Runs)> {
    vec![
        ("4 by falling", changed(|runs| runs.runs[0].keys[2].step = 2)),
        ("4 by falling taken keys", changed(|runs| {
            runs.record.regs.keys = 3;
            runs.runs[0].keys[0].step = 4;
        })),
        ("4 by falling at once", changed(|runs| runs.runs[0].keys[0].step = 4)),
        ("4 by falling in the high half", changed(|runs| {
            runs.runs[0].keys[1].step = (1 << 32) + 1;
        })),
        ("4 by falling from 2^63", changed(|runs| runs.runs[0].keys[1].step = 1 << 63)),
        ("4 by keys taken", changed(|runs| runs.record.regs.keys = 4)),
        ("4 by 2^32 keys taken", changed(|runs| runs.record.regs.keys = 1 << 32)),
        ("5", changed(|runs| runs.record.regs.written = 4)),
        ("5 by 2^32 bytes written", changed(|runs| runs.record.regs.written = 1 << 32)),
        ("6", changed(|runs| runs.runs[0].budget = MAX_BUDGET + 1)),
        ("6 by a small low half", changed(|runs| runs.runs[0].budget = (1 << 32) + 5)),
        ("6 by 2^63", changed(|runs| runs.runs[0].budget = 1 << 63)),
    ]
}

#[rustfmt::skip]
fn stopped() -> Vec<(&'static str, Runs)> {
    vec![
        ("4 though stopped", changed(|runs| {
            runs.record.regs.stop = Stop::Halted;
            runs.record.regs.keys = 4;
        })),
        ("5 though budget 0", changed(|runs| {
            runs.runs[0].budget = 0;
            runs.record.regs.written = 4;
        })),
    ]
}

/// A refusal's number, and a change for it.
type Break = (u32, fn(&mut Runs));

#[rustfmt::skip]
const BREAKS: [Break; 6] = [
    (1, |runs| runs.memory.truncate(4095)),
    (2, |runs| runs.record.regs.pc = 1),
    (3, |runs| runs.record.buffer.count = u32::MAX),
    (4, |runs| runs.record.regs.keys = u64::MAX),
    (5, |runs| runs.record.regs.written = u64::MAX),
    (6, |runs| runs.runs[0].budget = u64::MAX),
];

/// Every two refusals of a run together.
fn run_pairs() -> Vec<(String, Runs)> {
    let mut cases = Vec::new();
    for (at, (low, first)) in BREAKS.iter().enumerate() {
        for (high, second) in &BREAKS[at + 1..] {
            let mut runs = changed(|_| {});
            first(&mut runs);
            second(&mut runs);
            cases.push((format!("{low} before {high}"), runs));
        }
    }
    cases
}

fn file(memory_length: usize, entry: u32, data_start: u32, body: usize) -> Load {
    let bytes: Vec<u8> = (1..=body).map(|nth| nth as u8).collect();
    Load { memory_length, fill: 0x55, file: executable(7, entry, data_start, &bytes) }
}

fn cut(length: usize) -> Load {
    let mut load = file(4096, 0, 8, 8);
    load.file.truncate(length);
    load
}

/// Too short for a header, with a wrong magic.
fn short(length: usize) -> Load {
    let mut load = cut(length);
    load.file[0] ^= 1;
    load
}

fn with_magic(magic: u32) -> Load {
    let mut load = file(4096, 0, 8, 8);
    load.file[..4].copy_from_slice(&magic.to_le_bytes());
    load
}

fn load_cases() -> Vec<(&'static str, Load)> {
    vec![
        ("load", file(8192, 4, 8, 9)),
        ("load, data start odd", file(4096, 0, 5, 9)),
        ("load, body as long as M", file(4096, 4092, 4096, 4096)),
        ("load into 2 MiB", file(MAX_MEMORY, 4, 8, 9)),
        ("load, bss above M", Load { file: executable(9999, 0, 8, &[7; 8]), ..cut(0) }),
        ("load 1 by M = 0", file(0, 0, 8, 8)),
        ("load 1 by M = 4,095", file(4095, 2, 99, 8)),
        ("load 7 by 15 bytes", cut(15)),
        ("load 7 by no bytes", cut(0)),
        ("load 7 by 3 bytes", cut(3)),
        ("load 7 by 4 bytes", short(4)),
        ("load 7 by 15 bytes before 8", short(15)),
        ("load 8 by its first byte", with_magic(MAGIC ^ 1)),
        ("load 8", with_magic(MAGIC ^ 0x100)),
        ("load 8 by its third byte", with_magic(MAGIC ^ 0x10_0000)),
        ("load 8 by its last byte", with_magic(MAGIC ^ 0x8000_0000)),
        ("load 9 by 16 bytes", cut(16)),
        ("load 9 by M + 1", file(4096, 1, 9999, 4097)),
        ("load 10", file(4096, 1, 9, 8)),
        ("load 10 by 2^31", file(4096, 0, 1 << 31, 8)),
        ("load 11 by entry's low bits", file(4096, 2, 8, 8)),
        ("load 11 by an odd entry", file(4096, 1, 8, 8)),
        ("load 11 by data start", file(4096, 8, 11, 20)),
        ("load 11 by wrapping", file(4096, 0xffff_fffc, 8, 8)),
    ]
}

/// Every two refusals of a load together; 9 to 11 need a whole header.
fn load_pairs() -> Vec<(String, Load)> {
    let wrong = |load: Load| {
        let mut load = load;
        load.file[0] ^= 1;
        load
    };
    let unlent = |load: Load| Load { memory_length: 4095, ..load };
    let list = [
        ("1 before 7", unlent(cut(15))),
        ("1 before 8", unlent(with_magic(0))),
        ("1 before 9", unlent(cut(16))),
        ("1 before 10", unlent(file(0, 0, 9, 8))),
        ("1 before 11", unlent(file(0, 2, 8, 8))),
        ("7 before 8", short(8)),
        ("8 before 9", wrong(cut(16))),
        ("8 before 10", wrong(file(4096, 0, 9, 8))),
        ("8 before 11", wrong(file(4096, 2, 8, 8))),
        ("9 before 10", file(4096, 0, 1, 0)),
        ("9 before 11", file(4096, 2, 0, 0)),
        ("10 before 11", file(4096, 2, 9, 8)),
    ];
    list.map(|(name, load)| (format!("load {name}"), load)).to_vec()
}
