//! Parts of FORMAT.md that cases and calls share: slots of the page buffer,
//! chunks of memory.

use crate::stream::{well_formed, Broken, Cursor};
use crate::types::{Buffer, Entry};

/// Zero bytes that part two chunks; fewer are cheaper to write out.
const GAP: usize = 8;

pub fn put32(bytes: &mut Vec<u8>, value: u32) {
    bytes.extend_from_slice(&value.to_le_bytes());
}

pub fn put64(bytes: &mut Vec<u8>, value: u64) {
    bytes.extend_from_slice(&value.to_le_bytes());
}

pub fn put_length(bytes: &mut Vec<u8>, length: usize, bound: usize) {
    assert!(length <= bound, "{length} is beyond the format's {bound}");
    put32(bytes, length as u32);
}

/// The slots up to the last that isn't all zero; the reader zeros the rest.
pub fn slots_to_give(buffer: &Buffer) -> &[Entry] {
    let blank = |entry: &Entry| Entry { origin: None, ..*entry } == Entry::default();
    let given = buffer.slots.iter().rposition(|entry| !blank(entry));
    &buffer.slots[..given.map_or(0, |last| last + 1)]
}

pub fn put_slots(bytes: &mut Vec<u8>, slots: &[Entry]) {
    for entry in slots {
        for field in [entry.page, entry.frame, u32::from(entry.user), u32::from(entry.write)] {
            put32(bytes, field);
        }
    }
}

/// The length without trailing zeros.
pub fn used(bytes: &[u8]) -> usize {
    bytes.iter().rposition(|byte| *byte != 0).map_or(0, |last| last + 1)
}

/// The stretches of memory to write out, as (start, end), in rising order.
pub fn chunks(memory: &[u8]) -> Vec<(usize, usize)> {
    let mut chunks: Vec<(usize, usize)> = Vec::new();
    for (at, byte) in memory.iter().enumerate() {
        if *byte == 0 {
            continue;
        }
        match chunks.last_mut() {
            Some((_, end)) if at - *end < GAP => *end = at + 1,
            _ => chunks.push((at, at + 1)),
        }
    }
    chunks
}

pub fn put_chunks(bytes: &mut Vec<u8>, memory: &[u8], chunks: &[(usize, usize)]) {
    for (start, end) in chunks {
        put32(bytes, *start as u32);
        put32(bytes, (end - start) as u32);
        bytes.extend_from_slice(&memory[*start..*end]);
    }
}

impl Cursor<'_> {
    pub fn buffer(&mut self, count: u32, given: usize) -> Result<Buffer, Broken> {
        let mut buffer = Buffer { count, ..Buffer::default() };
        for slot in &mut buffer.slots[..given] {
            let [page, frame, user, write] =
                [self.get32()?, self.get32()?, self.get32()?, self.get32()?];
            well_formed(user <= 1 && write <= 1)?;
            *slot = Entry { page, frame, user: user == 1, write: write == 1, origin: None };
        }
        Ok(buffer)
    }

    /// So many bytes, zero where no chunk writes. Chunks rise and don't overlap.
    pub fn chunked(&mut self, length: usize, chunks: usize) -> Result<Vec<u8>, Broken> {
        let mut bytes = vec![0; length];
        let mut free = 0;
        for _ in 0..chunks {
            let [start, length] = self.sizes()?;
            well_formed(start >= free)?;
            free = start + length;
            let place = bytes.get_mut(start..free).ok_or(Broken::Malformed)?;
            place.copy_from_slice(self.take(length)?);
        }
        Ok(bytes)
    }
}
