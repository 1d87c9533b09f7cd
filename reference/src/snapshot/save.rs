//! Saving a machine. "Saving answers the length, 0 when refused; later file
//! bytes stay."

use super::layout::{blocks_in_order, exchanged, numbers_in_order, to_bytes};
use super::layout::{Counts, Layout, HEADER};
use super::mistake::SnapshotMistake::{self, *};
use super::Lent;
use crate::case::numbers::numbers;
use crate::refusals::{lowest, Judged};
use crate::types::{Entry, Record, CAPACITY, PAGE};

/// Saves a machine into `file`: answer and length.
pub fn save(record: &Record, memory: &[u8], console: &[u8], file: &mut [u8]) -> (u32, u64) {
    save_with(record, memory, console, file, None)
}

/// `save`, with a planted mistake.
pub fn save_with(
    record: &Record,
    memory: &[u8],
    console: &[u8],
    file: &mut [u8],
    mistake: Option<SnapshotMistake>,
) -> (u32, u64) {
    let lent = Lent { memory: memory.len(), console: console.len(), file: file.len() };
    let answer = save_answer(record, &lent, mistake);
    // Where a planted mistake leaves a refusal out there may be nothing to save.
    let rules_answer = save_answer(record, &lent, None);
    if answer != 0 || rules_answer != 0 {
        let length = Layout::new(counts(record, &lent, mistake), mistake).length as u64;
        return (answer, misread_refused(file, rules_answer, length, mistake));
    }
    let bytes = bytes(record, memory, console, mistake);
    let (saved, later) = file.split_at_mut(bytes.len());
    saved.copy_from_slice(&bytes);
    match mistake {
        Some(LaterFileZeroed) => later.fill(0),
        Some(LengthOfFile) => return (0, lent.file as u64),
        Some(LengthOfBlocks) => return (0, (bytes.len() - HEADER) as u64),
        _ => {}
    }
    (0, bytes.len() as u64)
}

/// The first number that applies, or 0. "On saving, 1, 2, 3 and 5 come first."
/// 15 shows only where the lent file is longer than 4 GiB: otherwise 13 applies.
pub fn save_answer(record: &Record, lent: &Lent, mistake: Option<SnapshotMistake>) -> u32 {
    let planted = mistake.and_then(SnapshotMistake::judging);
    let judged = Judged { mistake: planted, ..Judged::new(record, lent.memory, lent.console) };
    let layout = Layout::new(counts(record, lent, mistake), mistake);
    let file = lent.file as u128;
    let short = match mistake {
        Some(SaveByteShort) => file + 1 < layout.length,
        Some(SaveExactRefused) => file <= layout.length,
        Some(SaveLongerRefused) => file != layout.length,
        _ => file < layout.length,
    };
    let mut refusals = vec![
        (1, judged.is_bad_size()),
        (2, judged.is_bad_register()),
        (3, judged.is_bad_buffer()),
        (5, judged.is_bad_console()),
        (13, short),
        (15, layout.offsets.iter().any(|offset| *offset >= 1 << 32)),
    ];
    refusals.retain(|(number, _)| mistake != Some(SaveUnjudged(*number)));
    lowest(&refusals, mistake.and_then(SnapshotMistake::save_order))
}

/// The header's counts of a machine.
fn counts(record: &Record, lent: &Lent, mistake: Option<SnapshotMistake>) -> Counts {
    let (entries, written) = (u64::from(record.buffer.count), record.regs.written);
    let entries = match mistake {
        Some(AllSlotsSaved) => CAPACITY as u64,
        Some(EntriesForgotten) => 0,
        _ => entries,
    };
    let console = match mistake {
        Some(ConsoleWhole) => lent.console as u64,
        Some(WrittenForgotten) => 0,
        _ => written,
    };
    Counts { pages: (lent.memory / PAGE as usize) as u64, entries, console }
}

/// All bytes of the file: header, registers, entries, console, memory.
fn bytes(
    record: &Record,
    memory: &[u8],
    console: &[u8],
    mistake: Option<SnapshotMistake>,
) -> Vec<u8> {
    let lent = Lent { memory: memory.len(), console: console.len(), file: 0 };
    let counts = counts(record, &lent, mistake);
    let layout = Layout::new(counts, mistake);
    let mut console = console[..counts.console as usize].to_vec();
    if mistake == Some(ConsolePadded) {
        console.resize(console.len().next_multiple_of(4), 0);
    }
    let mut memory = memory.to_vec();
    if mistake == Some(FirstPageOnly) {
        memory[PAGE as usize..].fill(0);
    }
    let entries = &record.buffer.slots[..counts.entries as usize];
    let blocks = [registers(record, mistake), block_of(entries, mistake), console, memory];
    let mut bytes = header(counts, &layout, mistake);
    for block in blocks_in_order(mistake) {
        bytes.extend_from_slice(&blocks[block]);
    }
    bytes
}

fn header(counts: Counts, layout: &Layout, mistake: Option<SnapshotMistake>) -> Vec<u8> {
    let pages = match mistake {
        Some(PagesAreBytes) => counts.pages * u64::from(PAGE),
        _ => counts.pages,
    };
    let [registers, entries, console, memory] = layout.written(mistake).map(|offset| offset as u64);
    let words = [pages, counts.entries, counts.console, registers, entries, console, memory];
    let words = exchanged(words, mistake.and_then(SnapshotMistake::header_exchange));
    words.iter().flat_map(|word| to_bytes(*word, 4, mistake)).collect()
}

/// The record's numbers, "64 bits take eight bytes, all else a word".
fn registers(record: &Record, mistake: Option<SnapshotMistake>) -> Vec<u8> {
    let mut list = numbers(&record.regs);
    list.push(record.regs.keys);
    if let Some(mistake) = mistake {
        mistake.misread_number(&mut list);
    }
    let order = numbers_in_order(mistake);
    order.iter().flat_map(|(nth, width)| to_bytes(list[*nth], *width, mistake)).collect()
}

/// "An entry: page, frame, user right, write right", in buffer order.
fn block_of(entries: &[Entry], mistake: Option<SnapshotMistake>) -> Vec<u8> {
    let words = |entry: &Entry| {
        let page = match mistake {
            Some(PageShort) => entry.page & 0xffff,
            _ => entry.page,
        };
        let rights = [u64::from(entry.user), u64::from(entry.write)];
        let words = [u64::from(page), u64::from(entry.frame), rights[0], rights[1]];
        exchanged(words, mistake.and_then(SnapshotMistake::entry_exchange))
    };
    let mut list: Vec<[u64; 4]> = entries.iter().map(words).collect();
    if mistake == Some(EntriesReversed) {
        list.reverse();
    }
    list.iter().flatten().flat_map(|word| to_bytes(*word, 4, mistake)).collect()
}

/// The length of a refused save: 0. Planted mistakes: what it might do.
fn misread_refused(
    file: &mut [u8],
    answer: u32,
    length: u64,
    mistake: Option<SnapshotMistake>,
) -> u64 {
    match mistake {
        Some(RefusedSaveClears) => file.fill(0),
        Some(ShortFileCleared) if answer == 13 => file.fill(0),
        Some(RefusedHasLength) => return length,
        Some(ShortHasLength) if answer == 13 => return length,
        _ => {}
    }
    0
}
