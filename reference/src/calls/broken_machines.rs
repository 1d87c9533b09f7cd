//! Broken calls of saving and reading machines, and good ones at the edges.

use super::format::encode;
use super::stored::machines::plain;
use super::stored::restores::restore_of;
use super::{Call, MAX_CALL, MAX_CONSOLE, MAX_FILE, MAX_MEMORY};
use crate::broken::{changed, sized};
use crate::case::numbers::NAMES;

/// Where both kinds have the lengths of what is lent.
const FILE: usize = 8;
const MEMORY: usize = 12;
const CONSOLE: usize = 16;
/// Where a call of saving has its other fields.
const COUNT: usize = 20;
const SLOTS: usize = 24;
const CHUNKS: usize = 28;
const GIVEN: usize = 32;
const FILL: usize = 36;
const NUMBERS: usize = 56;
const FIRST_NUMBER: usize = 60;
/// The place of the mode among the numbers; f and g follow.
const MODE: usize = 22;
/// Where `save` has its parts: two slots, two chunks, five console bytes.
const SLOT: usize = FIRST_NUMBER + 8 * NAMES.len();
const CHUNK: usize = SLOT + 32;
const SECOND_CHUNK: usize = CHUNK + 8 + 2;
/// Where a call of reading has its other fields, and its chunks.
const READ_FILL: usize = 20;
const READ_CHUNKS: usize = 24;
const READ_CHUNK: usize = 28;

pub fn save() -> Vec<u8> {
    encode(&plain().into())
}

pub fn restore() -> Vec<u8> {
    encode(&restore_of(&plain()).into())
}

/// One byte in a file of 28.
fn short() -> Vec<u8> {
    let mut restore = restore_of(&plain());
    restore.file = vec![0; 28];
    restore.file[3] = 9;
    encode(&Call::Restore(restore))
}

fn with(at: usize, value: u32) -> Vec<u8> {
    changed(save(), at, value)
}

fn read_with(at: usize, value: u32) -> Vec<u8> {
    changed(short(), at, value)
}

/// Cut comes before what is wrong in a call.
pub fn cut() -> Vec<Vec<u8>> {
    let mut list = Vec::new();
    for call in [save(), restore(), changed(save(), MEMORY, u32::MAX)] {
        list.extend([8, 28, 60, call.len() - 1].map(|length| call[..length].to_vec()));
    }
    list
}

/// The lengths of what is lent come before all else in a call, once all its
/// fields are there.
pub fn bounds() -> Vec<Vec<u8>> {
    let lengths = [(MEMORY, MAX_MEMORY), (CONSOLE, MAX_CONSOLE), (FILE, MAX_FILE)];
    let mut list = vec![sized(save(), MAX_CALL + 1), sized(restore(), MAX_CALL + 1)];
    for (at, most) in lengths {
        for value in [most as u32 + 1, u32::MAX] {
            list.push(with(at, value));
            list.push(read_with(at, value));
        }
        let beyond = most as u32 + 1;
        list.push(changed(with(at, beyond), FILL, 256));
        list.push(changed(with(at, beyond), NUMBERS, 0));
        list.push(changed(with(at, beyond), SLOTS, 65));
        list.push(changed(read_with(at, beyond), READ_FILL, 256));
        list.push(changed(read_with(at, beyond), READ_CHUNKS, u32::MAX));
        list.push(sized(with(at, beyond), FIRST_NUMBER));
        list.push(sized(read_with(at, beyond), READ_CHUNK));
    }
    list
}

/// Too short for its fields, whatever these say, or not of its parts' length.
pub fn lengths() -> Vec<Vec<u8>> {
    let mut list = Vec::new();
    let ends = [8, 27, 28, 59, FIRST_NUMBER, SLOT - 1, SLOT, SLOT + 31, CHUNK, CHUNK + 9];
    list.extend(ends.map(|length| sized(save(), length)));
    list.extend([8, 12, 24, 27, READ_CHUNK, 35, 36].map(|length| sized(short(), length)));
    for call in [save(), restore(), short()] {
        let length = call.len();
        let ends = [length - 5, length - 1, length + 1, length + 4, MAX_CALL];
        list.extend(ends.map(|length| sized(call.clone(), length)));
    }
    for at in [FILE, MEMORY, CONSOLE] {
        list.push(sized(with(at, u32::MAX), FIRST_NUMBER - 1));
        list.push(sized(read_with(at, u32::MAX), READ_CHUNK - 1));
    }
    list
}

/// Counts that contradict each other or the format, numbers that don't fit,
/// chunks outside what they fill or not rising.
#[rustfmt::skip]
pub fn fields() -> Vec<Vec<u8>> {
    let count = NAMES.len() as u32;
    let saves = [
        (FILL, 256), (FILL, u32::MAX),
        (SLOTS, 1), (SLOTS, 3), (SLOTS, 65), (SLOTS, u32::MAX),
        (CHUNKS, 1), (CHUNKS, 3), (CHUNKS, u32::MAX),
        (GIVEN, 4), (GIVEN, 6), (GIVEN, u32::MAX), (CONSOLE, 4), (CONSOLE, 0),
        (NUMBERS, 0), (NUMBERS, count - 1), (NUMBERS, count + 1), (NUMBERS, u32::MAX),
        (MEMORY, 4095), (MEMORY, 0), (CHUNK, u32::MAX), (CHUNK, 4091), (CHUNK + 4, 1),
        (SECOND_CHUNK, 1), (SECOND_CHUNK, 4093), (SECOND_CHUNK, u32::MAX),
        (SECOND_CHUNK + 4, 3), (SECOND_CHUNK + 4, u32::MAX),
        (SLOT + 8, 2), (SLOT + 12, 2), (SLOT + 28, 0x100), (SLOT + 28, u32::MAX),
    ];
    let reads = [
        (READ_FILL, 256), (READ_FILL, u32::MAX),
        (READ_CHUNKS, 0), (READ_CHUNKS, 2), (READ_CHUNKS, u32::MAX),
        (READ_CHUNK, 28), (READ_CHUNK, u32::MAX),
        (READ_CHUNK + 4, 0), (READ_CHUNK + 4, 2), (READ_CHUNK + 4, u32::MAX),
        (FILE, 3), (FILE, 0),
    ];
    let mut list: Vec<Vec<u8>> = saves.into_iter().map(|(at, value)| with(at, value)).collect();
    list.extend(reads.into_iter().map(|(at, value)| read_with(at, value)));
    list.extend(numbers());
    list
}

/// Too large for the record's fields: 13 words, 6 flags and marks, the stop
/// reason, the cause, the mode.
fn numbers() -> Vec<Vec<u8>> {
    let place = |nth: usize| FIRST_NUMBER + 8 * nth;
    let narrow = (0..21).chain([MODE]);
    let mut list: Vec<Vec<u8>> = narrow.map(|nth| with(place(nth) + 4, 1)).collect();
    list.extend((13..19).map(|flag| with(place(flag), 2)));
    list.extend([2, 0x100].map(|mode| with(place(MODE), mode)));
    list.extend([4, 0x100].map(|stop| with(place(19), stop)));
    list.extend([8, 0x100, u32::MAX].map(|cause| with(place(20), cause)));
    list
}

/// At the edges of what is lent, and numbers that refuse a machine but break
/// nothing.
pub fn unbroken() -> Vec<Vec<u8>> {
    let none = changed(changed(sized(short(), READ_CHUNK), READ_CHUNKS, 0), FILE, 0);
    vec![
        save(),
        restore(),
        with(FILE, 0),
        with(FILE, MAX_FILE as u32),
        with(MEMORY, MAX_MEMORY as u32),
        with(MEMORY, 4097),
        with(CONSOLE, MAX_CONSOLE as u32),
        with(COUNT, u32::MAX),
        with(FILL, 255),
        with(FILL, 0),
        // Keys taken, and what a count and a step count may have.
        changed(with(40, u32::MAX), 44, u32::MAX),
        changed(with(48, u32::MAX), 52, u32::MAX),
        with(FIRST_NUMBER + 8 * 20, 7),
        with(FIRST_NUMBER + 8 * 21 + 4, u32::MAX),
        with(FIRST_NUMBER + 8 * MODE, 1),
        with(FIRST_NUMBER + 8 * MODE + 12, u32::MAX),
        with(FIRST_NUMBER + 8 * MODE + 20, u32::MAX),
        with(SLOT + 16, u32::MAX),
        with(CHUNK, 2),
        with(SECOND_CHUNK, 4),
        changed(changed(short(), FILE, MAX_FILE as u32), READ_CHUNK, MAX_FILE as u32 - 1),
        read_with(MEMORY, MAX_MEMORY as u32),
        read_with(MEMORY, 0),
        read_with(CONSOLE, MAX_CONSOLE as u32),
        read_with(CONSOLE, 0),
        read_with(READ_FILL, 255),
        read_with(READ_CHUNK, 27),
        read_with(FILE, 4),
        none.clone(),
        changed(none, FILE, MAX_FILE as u32),
    ]
}
