//! What stands where in a saved machine's file: "a header of little-endian
//! words: count of pages, of buffer entries and of console bytes, then the
//! offset of registers, entries, console and memory. Blocks follow in that order
//! without gaps."

use super::mistake::SnapshotMistake::{self, *};
use crate::case::numbers::widths;
use crate::types::{Record, PAGE};

/// Seven words.
pub const HEADER: usize = 28;
/// Four words.
pub const ENTRY: usize = 16;

/// The blocks, by their place in the header and in the file.
pub const REGISTERS: usize = 0;
pub const ENTRIES: usize = 1;
pub const CONSOLE: usize = 2;
pub const MEMORY: usize = 3;

/// Bytes of the register block; it grows with the record.
pub fn registers_length() -> usize {
    widths().iter().sum()
}

/// Bytes that a machine takes whose counts pass.
pub fn saved_length(record: &Record, memory: usize) -> usize {
    let (entries, written) = (record.buffer.count as usize, record.regs.written as usize);
    HEADER + registers_length() + ENTRY * entries + written + memory
}

/// The header's three counts.
#[derive(Clone, Copy, Debug, PartialEq, Eq)]
pub struct Counts {
    pub pages: u64,
    pub entries: u64,
    /// Console bytes: the written ones.
    pub console: u64,
}

/// What follows from the counts, as whole numbers.
#[derive(Clone, Copy, Debug, PartialEq, Eq)]
pub struct Layout {
    /// Where each block begins.
    pub offsets: [u128; 4],
    /// The file's length.
    pub length: u128,
}

impl Layout {
    pub fn new(counts: Counts, mistake: Option<SnapshotMistake>) -> Layout {
        let registers: usize = numbers_in_order(mistake).iter().map(|(_, width)| width).sum();
        let console = match mistake {
            Some(ConsolePadded) => u128::from(counts.console).next_multiple_of(4),
            _ => u128::from(counts.console),
        };
        let entries = ENTRY as u128 * u128::from(counts.entries);
        let memory = u128::from(PAGE) * u128::from(counts.pages);
        let lengths = [registers as u128, entries, console, memory];
        let (mut offsets, mut end) = ([0; 4], HEADER as u128);
        for block in blocks_in_order(mistake) {
            offsets[block] = end;
            end += lengths[block];
        }
        Layout { offsets, length: end }
    }

    /// The offsets as the header has them.
    pub fn written(&self, mistake: Option<SnapshotMistake>) -> [u128; 4] {
        let mut offsets = self.offsets;
        match mistake {
            Some(OffsetHigh(block)) => offsets[block] += 4,
            Some(OffsetsAfterHeader) => {
                offsets.iter_mut().for_each(|offset| *offset -= HEADER as u128)
            }
            _ => {}
        }
        offsets
    }
}

/// The blocks in the order in which they follow.
pub fn blocks_in_order(mistake: Option<SnapshotMistake>) -> [usize; 4] {
    let mut blocks = [REGISTERS, ENTRIES, CONSOLE, MEMORY];
    if let Some(BlocksExchanged(nth)) = mistake {
        blocks.swap(nth, nth + 1);
    }
    blocks
}

/// The numbers of the register block in the order in which they follow: which
/// of the record's list, and the bytes it takes.
pub fn numbers_in_order(mistake: Option<SnapshotMistake>) -> Vec<(usize, usize)> {
    let mut list: Vec<(usize, usize)> = widths().into_iter().enumerate().collect();
    let last = list.len() - 1;
    match mistake {
        Some(NumbersExchanged(nth)) => list.swap(nth, nth + 1),
        Some(NumberIsWord(nth)) => list[nth].1 = 4,
        // Keys taken follow the list.
        Some(KeysSaved) => list.push((last + 1, 8)),
        _ => {}
    }
    list
}

/// The words of the header or of an entry, one exchanged with the next where a
/// planted mistake says so.
pub fn exchanged<const N: usize>(mut words: [u64; N], nth: Option<usize>) -> [u64; N] {
    if let Some(nth) = nth {
        words.swap(nth, nth + 1);
    }
    words
}

/// A number's bytes, low byte first.
pub fn to_bytes(number: u64, width: usize, mistake: Option<SnapshotMistake>) -> Vec<u8> {
    let mut bytes = number.to_le_bytes()[..width].to_vec();
    misplace(&mut bytes, mistake);
    bytes
}

/// The number that these bytes are.
pub fn from_bytes(bytes: &[u8], mistake: Option<SnapshotMistake>) -> u64 {
    let mut bytes = bytes.to_vec();
    misplace(&mut bytes, mistake);
    bytes.iter().rev().fold(0, |number, byte| (number << 8) | u64::from(*byte))
}

/// Planted mistakes only.
fn misplace(bytes: &mut [u8], mistake: Option<SnapshotMistake>) {
    match mistake {
        Some(HighByteFirst) => bytes.reverse(),
        Some(HighHalfFirst) if bytes.len() == 8 => bytes.rotate_left(4),
        _ => {}
    }
}
