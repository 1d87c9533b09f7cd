//! Writing and reading the calls on saved machines, kinds 3 and 4.

use super::{Restore, Save, MAX_CONSOLE, MAX_FILE, MAX_MEMORY};
use crate::case::numbers::{numbers, registers, NAMES};
use crate::case::parts::{chunks, put32, put64, put_chunks, put_length, put_slots};
use crate::case::parts::{slots_to_give, used};
use crate::stream::{well_formed, within, Broken, Cursor};
use crate::types::{Record, Registers, CAPACITY};

/// The fields and parts of a machine to save, as a case of runs has them but for
/// the file in the place of entries and runs.
pub fn put_save(bytes: &mut Vec<u8>, save: &Save) {
    let chunks = chunks(&save.memory);
    let console = &save.console[..used(&save.console)];
    let (regs, buffer) = (&save.record.regs, &save.record.buffer);
    let slots = slots_to_give(buffer);
    put_length(bytes, save.file_length, MAX_FILE);
    put_length(bytes, save.memory.len(), MAX_MEMORY);
    put_length(bytes, save.console.len(), MAX_CONSOLE);
    put32(bytes, buffer.count);
    put32(bytes, slots.len() as u32);
    put32(bytes, chunks.len() as u32);
    put32(bytes, console.len() as u32);
    put32(bytes, u32::from(save.fill));
    put64(bytes, regs.keys);
    put64(bytes, regs.written);
    let numbers = numbers(regs);
    put32(bytes, numbers.len() as u32);
    numbers.iter().for_each(|number| put64(bytes, *number));
    put_slots(bytes, slots);
    put_chunks(bytes, &save.memory, &chunks);
    bytes.extend_from_slice(console);
}

pub fn put_restore(bytes: &mut Vec<u8>, restore: &Restore) {
    let chunks = chunks(&restore.file);
    put_length(bytes, restore.file.len(), MAX_FILE);
    put_length(bytes, restore.memory_length, MAX_MEMORY);
    put_length(bytes, restore.console_length, MAX_CONSOLE);
    put32(bytes, u32::from(restore.fill));
    put32(bytes, chunks.len() as u32);
    put_chunks(bytes, &restore.file, &chunks);
}

impl Cursor<'_> {
    /// All fields must be there before a bound is judged, and the bounds come
    /// before all else.
    pub fn save(&mut self) -> Result<Save, Broken> {
        let [file_length, memory_length, console_length, count, slots, chunks, given, fill] =
            self.sizes()?;
        let [keys, written] = [self.get64()?, self.get64()?];
        let numbers = self.size()?;
        lent_within(file_length, memory_length, console_length)?;
        let fill = fill_byte(fill)?;
        well_formed(numbers == NAMES.len() && slots <= CAPACITY && given <= console_length)?;
        let numbers = (0..numbers).map(|_| self.get64()).collect::<Result<Vec<_>, _>>()?;
        let regs = registers(&numbers).ok_or(Broken::Malformed)?;
        let record = Record {
            regs: Registers { keys, written, ..regs },
            buffer: self.buffer(count as u32, slots)?,
        };
        let memory = self.chunked(memory_length, chunks)?;
        let mut console = vec![0; console_length];
        console[..given].copy_from_slice(self.take(given)?);
        Ok(Save { record, memory, console, file_length, fill })
    }

    pub fn restore(&mut self) -> Result<Restore, Broken> {
        let [file_length, memory_length, console_length, fill, chunks] = self.sizes()?;
        lent_within(file_length, memory_length, console_length)?;
        let fill = fill_byte(fill)?;
        let file = self.chunked(file_length, chunks)?;
        Ok(Restore { file, memory_length, console_length, fill })
    }
}

fn lent_within(file: usize, memory: usize, console: usize) -> Result<(), Broken> {
    within(memory <= MAX_MEMORY && console <= MAX_CONSOLE && file <= MAX_FILE)
}

fn fill_byte(fill: usize) -> Result<u8, Broken> {
    fill.try_into().map_err(|_| Broken::Malformed)
}
