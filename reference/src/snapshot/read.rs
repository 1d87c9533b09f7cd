//! Reading a saved machine. "A refused read gives an all-zero record" and leaves
//! memory and console; "on reading later console bytes stay".

use super::layout::{exchanged, from_bytes, numbers_in_order, Counts, Layout};
use super::layout::{CONSOLE, ENTRIES, ENTRY, HEADER, MEMORY, REGISTERS};
use super::mistake::SnapshotMistake::{self, *};
use super::Lent;
use crate::case::numbers::{registers, NAMES};
use crate::refusals::{is_bad_memory, lowest, Judged};
use crate::types::{Buffer, Entry, Record, Registers, CAPACITY, NO_KEY, PAGE};

/// Reads a saved machine into `memory` and `console`: answer and record.
pub fn read(file: &[u8], memory: &mut [u8], console: &mut [u8]) -> (u32, Record) {
    read_with(file, memory, console, None)
}

/// `read`, with a planted mistake.
pub fn read_with(
    file: &[u8],
    memory: &mut [u8],
    console: &mut [u8],
    mistake: Option<SnapshotMistake>,
) -> (u32, Record) {
    let lent = Lent { memory: memory.len(), console: console.len(), file: file.len() };
    let answer = read_answer(file, &lent, mistake);
    let rules_answer = read_answer(file, &lent, None);
    // Where a planted mistake leaves a refusal out there may be nothing to read.
    if answer != 0 || rules_answer != 0 {
        misread_refused(rules_answer, file, memory, console, mistake);
        return (answer, refused_record(file, answer, mistake));
    }
    copy_blocks(file, memory, console, mistake);
    (0, record(file, mistake).expect("an accepted file has a record"))
}

/// An all-zero record, but for planted mistakes.
fn refused_record(file: &[u8], answer: u32, mistake: Option<SnapshotMistake>) -> Record {
    let mut refused = Record::default();
    match mistake {
        Some(RefusedKbchar) => refused.regs.kbchar = NO_KEY,
        Some(RefusedHasRecord) if answer == 16 => {
            refused = record(file, mistake).unwrap_or_default();
        }
        _ => {}
    }
    refused
}

/// The header's words. What a short file lacks counts as 0: 13 comes before it
/// shows.
struct Header {
    counts: Counts,
    offsets: [u64; 4],
}

impl Header {
    fn of(file: &[u8], mistake: Option<SnapshotMistake>) -> Header {
        let mut bytes = file[..file.len().min(HEADER)].to_vec();
        bytes.resize(HEADER, 0);
        let mut words = [0; 7];
        for (word, bytes) in words.iter_mut().zip(bytes.chunks(4)) {
            *word = from_bytes(bytes, mistake);
        }
        let words = exchanged(words, mistake.and_then(SnapshotMistake::header_exchange));
        let [pages, entries, console, offsets @ ..] = words;
        let pages = match mistake {
            Some(PagesAreBytes) => pages / u64::from(PAGE),
            _ => pages,
        };
        Header { counts: Counts { pages, entries, console }, offsets }
    }

    /// 14: "pages unlike the lent memory, more than 64 entries, or more console
    /// bytes than the lent console".
    fn is_unlike(&self, lent: &Lent, mistake: Option<SnapshotMistake>) -> bool {
        let makes = |other: SnapshotMistake| mistake == Some(other);
        let Counts { pages, entries, console } = self.counts;
        let bytes = pages * u64::from(PAGE);
        let (memory, lent_console) = (lent.memory as u64, lent.console as u64);
        let pages_unlike = match mistake {
            Some(PagesWrap) => bytes as u32 as u64 != memory,
            Some(FewerPagesPass) => bytes > memory,
            Some(MorePagesPass) => bytes < memory,
            _ => bytes != memory,
        };
        let most = match mistake {
            Some(EntryMorePasses) => 65,
            Some(FullBufferRefused) => 63,
            _ => CAPACITY as u64,
        };
        let console_beyond = match mistake {
            Some(ConsoleByteMorePasses) => console > lent_console + 1,
            Some(FullConsoleRefused) => console >= lent_console,
            Some(ConsoleSigned) => console as u32 as i32 > lent_console as i32,
            Some(ConsoleWhole) => console != lent_console,
            _ => console > lent_console,
        };
        (pages_unlike && !makes(PagesUnjudged))
            || (entries > most && !makes(EntriesUnjudged))
            || (console_beyond && !makes(ConsoleUnjudged))
    }

    /// 15: "an offset or length that doesn't follow from the counts".
    fn is_misplaced(&self, length: usize, mistake: Option<SnapshotMistake>) -> bool {
        let mut counts = self.counts;
        if mistake == Some(PagesWrap) {
            counts.pages %= 1 << 20;
        }
        let layout = Layout::new(counts, mistake);
        let offsets = self.offsets.iter().zip(layout.written(mistake)).enumerate();
        let wrong = |(nth, (found, right)): (usize, (&u64, u128))| match mistake {
            Some(OffsetUnjudged(free)) if free == nth => false,
            Some(OffsetLowHalf(half)) if half == nth => (u128::from(*found) ^ right) % 65_536 != 0,
            _ => u128::from(*found) != right,
        };
        let length = length as u128;
        let unlike = match mistake {
            Some(LongerFilePasses) => length < layout.length,
            Some(ShorterFilePasses) => length > layout.length,
            Some(LengthByWords) => length.div_ceil(4) != layout.length.div_ceil(4),
            Some(LengthUnjudged) => false,
            _ => length != layout.length,
        };
        offsets.into_iter().any(wrong) || unlike
    }
}

/// The first number that applies, or 0: "on reading, 1" comes first.
pub fn read_answer(file: &[u8], lent: &Lent, mistake: Option<SnapshotMistake>) -> u32 {
    let header = Header::of(file, mistake);
    let short = match mistake {
        Some(HeaderByteShort) => file.len() < HEADER - 1,
        Some(HeaderAloneShort) => file.len() <= HEADER,
        Some(ShortFileIs13) => (file.len() as u128) < Layout::new(header.counts, None).length,
        _ => file.len() < HEADER,
    };
    let mut refusals = vec![
        (1, is_bad_memory(lent.memory)),
        (13, short),
        (14, header.is_unlike(lent, mistake)),
        (15, header.is_misplaced(file.len(), mistake)),
        (16, is_bad_record(file, lent, mistake)),
    ];
    refusals.retain(|(number, _)| mistake != Some(ReadUnjudged(*number)));
    lowest(&refusals, mistake.and_then(SnapshotMistake::read_order))
}

/// 16: "registers or entries that document 01's 2 or 3 would refuse, a flag,
/// mark or right not 0 or 1, a stop reason above 3 or cause without a meaning".
fn is_bad_record(file: &[u8], lent: &Lent, mistake: Option<SnapshotMistake>) -> bool {
    if !has_record(file, mistake) {
        return false;
    }
    let Some(record) = record(file, mistake) else { return true };
    let planted = mistake.and_then(SnapshotMistake::judging);
    let judged = Judged { mistake: planted, ..Judged::new(&record, lent.memory, lent.console) };
    judged.is_bad_register()
        || judged.is_bad_buffer()
        || mistake.is_some_and(|mistake| mistake.misjudges(&record.regs))
}

/// Whether the file is long enough for the entries it counts, and these fit the
/// buffer. Where it isn't, another number comes before 16.
fn has_record(file: &[u8], mistake: Option<SnapshotMistake>) -> bool {
    let counts = Header::of(file, mistake).counts;
    let end =
        Layout::new(counts, mistake).offsets[ENTRIES] + ENTRY as u128 * u128::from(counts.entries);
    counts.entries <= CAPACITY as u64 && end <= file.len() as u128
}

/// The record in a file; `None` where it has none, or a number that stands for
/// nothing. Keys taken start again at 0, slots past the count are zero.
fn record(file: &[u8], mistake: Option<SnapshotMistake>) -> Option<Record> {
    if !has_record(file, mistake) {
        return None;
    }
    let counts = Header::of(file, mistake).counts;
    let layout = Layout::new(counts, mistake);
    let mut list = vec![0; NAMES.len() + 1];
    let mut at = layout.offsets[REGISTERS] as usize;
    for (nth, width) in numbers_in_order(mistake) {
        list[nth] = from_bytes(file.get(at..at + width)?, mistake);
        at += width;
    }
    if let Some(mistake) = mistake {
        mistake.misread_number(&mut list);
        mistake.loosen_number(&mut list);
    }
    let written = if mistake == Some(WrittenForgotten) { 0 } else { counts.console };
    let regs = Registers { written, ..registers(&list[..NAMES.len()])? };
    let buffer =
        buffer(&file[layout.offsets[ENTRIES] as usize..], counts.entries as usize, mistake)?;
    Some(Record { regs, buffer })
}

fn buffer(bytes: &[u8], count: usize, mistake: Option<SnapshotMistake>) -> Option<Buffer> {
    let mut buffer = Buffer { count: count as u32, ..Buffer::default() };
    for (slot, bytes) in buffer.slots[..count].iter_mut().zip(bytes.chunks(ENTRY)) {
        *slot = entry(bytes, mistake)?;
    }
    match mistake {
        Some(EntriesReversed) => buffer.slots[..count].reverse(),
        Some(EntriesForgotten) => buffer.count = 0,
        _ => {}
    }
    Some(buffer)
}

fn entry(bytes: &[u8], mistake: Option<SnapshotMistake>) -> Option<Entry> {
    let mut words = [0; 4];
    for (word, bytes) in words.iter_mut().zip(bytes.chunks(4)) {
        *word = from_bytes(bytes, mistake);
    }
    let mut words = exchanged(words, mistake.and_then(SnapshotMistake::entry_exchange));
    if let Some(mistake) = mistake {
        mistake.loosen_right(&mut words);
    }
    let [page, frame, user, write] = words;
    let page = if mistake == Some(PageShort) { page & 0xffff } else { page };
    let right = |word: u64| match word {
        0 => Some(false),
        1 => Some(true),
        _ => None,
    };
    let (page, frame) = (page as u32, frame as u32);
    Some(Entry { page, frame, user: right(user)?, write: right(write)?, origin: None })
}

/// Memory and the console's first bytes, of a file that was accepted.
fn copy_blocks(
    file: &[u8],
    memory: &mut [u8],
    console: &mut [u8],
    mistake: Option<SnapshotMistake>,
) {
    let counts = Header::of(file, mistake).counts;
    let layout = Layout::new(counts, mistake);
    let block = |nth: usize, length: usize| {
        let start = layout.offsets[nth] as usize;
        &file[start..start + length]
    };
    let memory = match mistake {
        Some(FirstPageOnly) => &mut memory[..PAGE as usize],
        _ => memory,
    };
    memory.copy_from_slice(block(MEMORY, memory.len()));
    let (read, later) = console.split_at_mut(counts.console as usize);
    read.copy_from_slice(block(CONSOLE, read.len()));
    if mistake == Some(LaterConsoleZeroed) {
        later.fill(0);
    }
}

/// Planted mistakes only: what a refused read might do to what is lent.
fn misread_refused(
    answer: u32,
    file: &[u8],
    memory: &mut [u8],
    console: &mut [u8],
    mistake: Option<SnapshotMistake>,
) {
    match mistake {
        Some(RefusedReadClearsMemory) => memory.fill(0),
        Some(RefusedReadClearsConsole) => console.fill(0),
        Some(BlocksBeforeRecord) if answer == 16 => copy_blocks(file, memory, console, None),
        _ => {}
    }
}
