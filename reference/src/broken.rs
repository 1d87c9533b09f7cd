//! Broken streams, each with what FORMAT.md calls it, and good ones at the
//! edges. Every one has two good cases in front, so that lines come before the
//! last.

use crate::case::encode::encode;
use crate::case::numbers::NAMES;
use crate::case::{Case, Load, Runs};
use crate::stream::Broken::{self, Bounds, Cut, Malformed};
use crate::types::Registers;
use crate::worked::op;

/// A stream, and how it is broken, if it is.
pub type Stream = (Option<Broken>, Vec<u8>);

/// Where a case of runs has its fields.
const ENTRIES: usize = 8;
const MEMORY: usize = 12;
const CONSOLE: usize = 16;
const COUNT: usize = 20;
const SLOTS: usize = 24;
const CHUNKS: usize = 28;
const GIVEN: usize = 32;
const RUNS: usize = 36;
const NUMBERS: usize = 56;
const FIRST_NUMBER: usize = 60;
/// The place of the mode among the numbers; f and g follow.
const MODE: usize = 22;
/// Where `good` has its parts.
const SLOT: usize = FIRST_NUMBER + 8 * NAMES.len();
const FIRST_CHUNK: usize = SLOT + 16;
const SECOND_CHUNK: usize = FIRST_CHUNK + 8 + 2;
const KEYS: usize = SECOND_CHUNK + 8 + 3 + 1;

/// One slot, two chunks, one console byte, one run with one key.
pub fn good() -> Vec<u8> {
    let regs = Registers { sp: 4096, ..Registers::default() };
    let runs = Runs::new(4096, regs)
        .words(0, &[op("LI", 7)])
        .bytes(0x200, &[1, 2, 3])
        .console(&[5])
        .entry(1, 0, true, false)
        .run_keys(1, &[(3, 65)]);
    encode(&runs.into())
}

pub fn load() -> Vec<u8> {
    encode(&Case::Load(Load { memory_length: 4096, fill: 1, file: vec![2; 9] }))
}

/// Bytes with another number at `at`.
pub fn changed(mut bytes: Vec<u8>, at: usize, value: u32) -> Vec<u8> {
    bytes[at..at + 4].copy_from_slice(&value.to_le_bytes());
    bytes
}

/// A good case, one field of which has another value.
fn with(at: usize, value: u32) -> Vec<u8> {
    changed(good(), at, value)
}

/// Bytes added or taken at the end, and the length as it then is.
pub fn sized(mut bytes: Vec<u8>, length: usize) -> Vec<u8> {
    bytes.resize(length, 0);
    changed(bytes, 0, length as u32)
}

/// All of them.
pub fn streams() -> Vec<Stream> {
    let broken = |kind: Broken| move |case: Vec<u8>| (Some(kind), case);
    let after = |case: Vec<u8>| [case, good()].concat();
    let mut list: Vec<Stream> = cut().into_iter().map(broken(Cut)).collect();
    list.extend(bounds().into_iter().map(after).map(broken(Bounds)));
    let malformed = [lengths(), fields(), numbers(), chunks()].concat();
    list.extend(malformed.into_iter().map(after).map(broken(Malformed)));
    list.extend(unbroken().into_iter().map(|case| (None, case)));
    list.into_iter().map(|(kind, case)| (kind, [good(), load(), case].concat())).collect()
}

/// Cut comes before what is wrong in a case, but for a length beyond.
fn cut() -> Vec<Vec<u8>> {
    let shorter = |case: Vec<u8>, by: usize| case[..case.len() - by].to_vec();
    vec![
        vec![1],
        vec![0, 0],
        vec![0xff; 3],
        vec![5, 0, 0, 0],
        good()[..4].to_vec(),
        good()[..FIRST_NUMBER].to_vec(),
        shorter(good(), 1),
        shorter(good(), 8),
        shorter(load(), 1),
        shorter(load(), 9),
        shorter(with(4, 3), 1),
        shorter(with(MEMORY, u32::MAX), 1),
    ]
}

/// The header's bounds come before all else in it.
fn bounds() -> Vec<Vec<u8>> {
    vec![
        131_073u32.to_le_bytes().to_vec(),
        vec![0xff; 4],
        sized(good(), 131_073),
        with(MEMORY, 2_097_153),
        with(MEMORY, u32::MAX),
        with(CONSOLE, 4097),
        with(CONSOLE, u32::MAX),
        with(RUNS, 65),
        with(RUNS, u32::MAX),
        with(KEYS, 65),
        with(KEYS, u32::MAX),
        changed(load(), 8, 2_097_153),
        changed(changed(load(), 8, u32::MAX), 12, 256),
        changed(with(RUNS, 65), ENTRIES, 0),
        changed(with(MEMORY, 2_101_248), NUMBERS, 18),
    ]
}

/// The parts don't end where the case does. A case too short for its header
/// has no bounds to judge, and a slot comes before the keys.
fn lengths() -> Vec<Vec<u8>> {
    let mut list: Vec<Vec<u8>> = (1..4).map(|length: u32| length.to_le_bytes().to_vec()).collect();
    list.extend((4..8).map(|length| sized(Vec::new(), length)));
    list.extend([0, 3, 0x101, u32::MAX].map(|kind| with(4, kind)));
    for case in [good(), load()] {
        let ends = [8, 12, 19, 20, case.len() - 8, case.len() - 1, case.len() + 1, case.len() + 4];
        list.extend(ends.map(|length| sized(case.clone(), length)));
    }
    let ends = [36, 59, 60, SLOT - 1, SLOT, FIRST_CHUNK, SECOND_CHUNK + 9, KEYS, KEYS + 4];
    list.extend(ends.map(|length| sized(good(), length)));
    list.push(sized(with(MEMORY, u32::MAX), 59));
    list.push(changed(with(KEYS, 65), SLOT + 8, 2));
    list
}

/// Counts that contradict each other or the format.
#[rustfmt::skip]
fn fields() -> Vec<Vec<u8>> {
    let count = NAMES.len() as u32;
    let runs = [
        (ENTRIES, 0), (ENTRIES, 16), (ENTRIES, 17), (ENTRIES, 0x100), (ENTRIES, u32::MAX),
        (SLOTS, 65), (SLOTS, u32::MAX),
        (CHUNKS, 3), (CHUNKS, u32::MAX),
        (GIVEN, 2), (GIVEN, u32::MAX), (CONSOLE, 0),
        (RUNS, 0), (RUNS, 2), (RUNS, 64),
        (NUMBERS, count - 1), (NUMBERS, count + 1), (NUMBERS, 0), (NUMBERS, u32::MAX),
        (KEYS, 0), (KEYS, 2), (KEYS, 64),
    ];
    let loads = [(12, 256), (12, u32::MAX), (16, 0), (16, 8), (16, 10), (16, u32::MAX)];
    let runs = runs.map(|(at, value)| with(at, value));
    let loads = loads.map(|(at, value)| changed(load(), at, value));
    runs.into_iter().chain(loads).collect()
}

/// Too large for the record's fields (13 words, 4 flags, 2 marks, the stop
/// reason, the cause, the mode), or for a slot's rights.
fn numbers() -> Vec<Vec<u8>> {
    let place = |nth: usize| FIRST_NUMBER + 8 * nth;
    let narrow = (0..21).chain([MODE]);
    let mut list: Vec<Vec<u8>> = narrow.map(|nth| with(place(nth) + 4, 1)).collect();
    list.extend((13..19).map(|flag| with(place(flag), 2)));
    list.extend([2, 0x100, u32::MAX].map(|mode| with(place(MODE), mode)));
    list.push(with(place(19), 4));
    list.extend([8, 0x100, u32::MAX].map(|cause| with(place(20), cause)));
    for right in [SLOT + 8, SLOT + 12] {
        list.extend([2, 0x100, u32::MAX].map(|value| with(right, value)));
    }
    list
}

/// Outside memory, or not rising.
fn chunks() -> Vec<Vec<u8>> {
    vec![
        with(MEMORY, 0x202),
        with(MEMORY, 0),
        with(SECOND_CHUNK, 4094),
        with(SECOND_CHUNK, u32::MAX),
        with(SECOND_CHUNK, 1),
        with(FIRST_CHUNK, 0x1ff),
        with(FIRST_CHUNK + 4, 4),
        with(SECOND_CHUNK + 4, u32::MAX),
    ]
}

/// At the edges, and ended by a length of 0.
fn unbroken() -> Vec<Vec<u8>> {
    let file = changed(sized(load(), 131_072), 16, 131_072 - 20);
    vec![
        Vec::new(),
        vec![0; 4],
        vec![0, 0, 0, 0, 1, 2, 3],
        changed(sized(load(), 20), 16, 0),
        changed(file.clone(), 8, 0),
        changed(file, 8, 2_097_152),
        with(MEMORY, 2_097_152),
        with(CONSOLE, 4096),
        with(COUNT, u32::MAX),
        with(FIRST_NUMBER + 8 * 20, 7),
        with(FIRST_NUMBER + 8 * 21 + 4, u32::MAX),
        with(FIRST_NUMBER + 8 * MODE, 1),
        with(FIRST_NUMBER + 8 * MODE + 12, u32::MAX),
        with(FIRST_NUMBER + 8 * MODE + 20, u32::MAX),
        with(SECOND_CHUNK, 4093),
        with(SECOND_CHUNK, 2),
        with(ENTRIES, 1),
        with(ENTRIES, 2),
        with(ENTRIES, 4),
        with(ENTRIES, 8),
        with(ENTRIES, 12),
    ]
}
