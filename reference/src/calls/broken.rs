//! Broken streams of calls, each with what CALLS.md calls it, and good ones at
//! the edges. Every one has good calls of kinds 1 and 2 in front, so that lines
//! come before the last.

use super::broken_machines as machines;
use super::format::encode;
use super::{Call, KIND_LINES, KIND_RESTORE, KIND_SAVE, LAST_KIND, MAX_CALL, MAX_LINES};
use crate::broken::{changed, sized, Stream};
use crate::load::executable;
use crate::stream::Broken::{self, Bounds, Cut, Malformed};

/// Where a call has its fields: its kind, then those of lines and of a line
/// read back.
const KIND: usize = 4;
const FIRST: usize = 8;
const COUNT: usize = 16;
const FILE_LENGTH: usize = 20;
const FILE: usize = 24;
const LINE_LENGTH: usize = 8;
const LINE: usize = 12;

/// Two lines of a listing, and a number after the last.
pub fn lines() -> Vec<u8> {
    encode(&Call::first_lines(3, &executable(0, 0, 8, &[0x23, 5, 0, 0, 0, 0, 0, 0])))
}

/// A listed line.
pub fn read() -> Vec<u8> {
    encode(&Call::read("00000000 00000523 LI 5"))
}

/// All of them.
pub fn streams() -> Vec<Stream> {
    let broken = |kind: Broken| move |call: Vec<u8>| (Some(kind), call);
    let after = |call: Vec<u8>| [call, lines()].concat();
    let cut = [cut(), machines::cut()].concat();
    let mut list: Vec<Stream> = cut.into_iter().map(broken(Cut)).collect();
    let bounds = [bounds(), machines::bounds()].concat();
    list.extend(bounds.into_iter().map(after).map(broken(Bounds)));
    let malformed = [lengths(), fields(), machines::lengths(), machines::fields()].concat();
    list.extend(malformed.into_iter().map(after).map(broken(Malformed)));
    let unbroken = [unbroken(), machines::unbroken()].concat();
    list.extend(unbroken.into_iter().map(|call| (None, call)));
    list.into_iter().map(|(kind, call)| (kind, [lines(), read(), call].concat())).collect()
}

/// Cut comes before what is wrong in a call, but for a length beyond.
fn cut() -> Vec<Vec<u8>> {
    let shorter = |call: Vec<u8>, by: usize| call[..call.len() - by].to_vec();
    vec![
        vec![1],
        vec![0, 0],
        vec![0xff; 3],
        vec![5, 0, 0, 0],
        lines()[..4].to_vec(),
        lines()[..FILE].to_vec(),
        shorter(lines(), 1),
        shorter(lines(), 8),
        read()[..LINE].to_vec(),
        shorter(read(), 1),
        shorter(changed(read(), KIND, 0), 1),
        shorter(changed(lines(), COUNT, u32::MAX), 1),
    ]
}

/// The count comes before the file's length.
fn bounds() -> Vec<Vec<u8>> {
    let beyond = MAX_CALL + 1;
    let count = MAX_LINES as u32 + 1;
    vec![
        (beyond as u32).to_le_bytes().to_vec(),
        vec![0xff; 4],
        sized(lines(), beyond),
        sized(read(), beyond),
        changed(lines(), COUNT, count),
        changed(lines(), COUNT, 1 << 16),
        changed(lines(), COUNT, u32::MAX),
        changed(changed(lines(), COUNT, count), FILE_LENGTH, 0),
        changed(changed(lines(), COUNT, count), FILE_LENGTH, u32::MAX),
        sized(changed(lines(), COUNT, count), FILE),
        changed(read(), KIND, KIND_LINES),
        changed(read(), KIND, KIND_RESTORE),
    ]
}

/// Too short for its fields, whatever these say, or not of its parts' length.
fn lengths() -> Vec<Vec<u8>> {
    let mut list: Vec<Vec<u8>> = (1..4).map(|length: u32| length.to_le_bytes().to_vec()).collect();
    list.extend((4..8).map(|length| sized(Vec::new(), length)));
    let ends = [8, 12, 16, 20, FILE - 1, FILE];
    list.extend(ends.map(|length| sized(lines(), length)));
    list.extend([8, 9, LINE - 1, LINE].map(|length| sized(read(), length)));
    for call in [lines(), read()] {
        let length = call.len();
        let ends = [length - 4, length - 1, length + 1, length + 4, MAX_CALL];
        list.extend(ends.map(|length| sized(call.clone(), length)));
    }
    list.push(sized(changed(lines(), COUNT, u32::MAX), FILE - 1));
    list
}

/// Another kind, or a length that contradicts the call's.
fn fields() -> Vec<Vec<u8>> {
    let kinds = [0, LAST_KIND + 1, 0x101, 0x10001, u32::MAX];
    let mut list: Vec<Vec<u8>> = kinds.map(|kind| changed(lines(), KIND, kind)).to_vec();
    list.extend(kinds.map(|kind| changed(read(), KIND, kind)));
    for (call, at, fields) in [(lines(), FILE_LENGTH, FILE), (read(), LINE_LENGTH, LINE)] {
        let right = (call.len() - fields) as u32;
        let wrong = [0, right - 1, right + 1, right + 0x1_0000, u32::MAX - 3, u32::MAX];
        list.extend(wrong.map(|length| changed(call.clone(), at, length)));
    }
    // A call as another kind's; where a line's text would be a length it is beyond.
    list.push(changed(read(), KIND, KIND_SAVE));
    for (kind, call) in [(1, lines()), (3, machines::save()), (4, machines::restore())] {
        let others = (1..=LAST_KIND).filter(|other| *other != kind);
        list.extend(others.map(|other| changed(call.clone(), KIND, other)));
    }
    list
}

/// At the edges, and ended by a length of 0.
fn unbroken() -> Vec<Vec<u8>> {
    let file = |length: usize| changed(sized(lines(), FILE + length), FILE_LENGTH, length as u32);
    let line = |length: usize| changed(sized(read(), LINE + length), LINE_LENGTH, length as u32);
    vec![
        Vec::new(),
        vec![0; 4],
        vec![0, 0, 0, 0, 1, 2, 3],
        file(0),
        file(MAX_CALL - FILE),
        changed(file(0), COUNT, MAX_LINES as u32),
        line(0),
        line(1),
        line(MAX_CALL - LINE),
        changed(lines(), COUNT, 0),
        changed(lines(), COUNT, MAX_LINES as u32),
        changed(lines(), FIRST, u32::MAX),
        changed(changed(lines(), FIRST, u32::MAX), FIRST + 4, u32::MAX),
    ]
}
