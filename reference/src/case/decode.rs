//! Reading cases, one at a time, in the format of FORMAT.md.

use super::numbers::{registers, NAMES};
use super::{Case, Load, RunInput, Runs, ALL_ENTRIES, KIND_LOAD, KIND_RUNS};
use super::{MAX_CASE, MAX_CONSOLE, MAX_KEYS, MAX_MEMORY, MAX_RUNS};
use crate::stream::{well_formed, within, Broken, Cursor, Stream};
use crate::types::{Key, Record, Registers, CAPACITY};

/// The cases of a stream.
pub fn cases(bytes: &[u8]) -> Stream<'_, Case> {
    Stream { bytes, longest: MAX_CASE, decode }
}

/// All of them.
pub fn read_all(bytes: &[u8]) -> Result<Vec<Case>, Broken> {
    cases(bytes).collect()
}

/// A case from its bytes after the length.
fn decode(bytes: &[u8]) -> Result<Case, Broken> {
    let mut cursor = Cursor(bytes);
    let case = match cursor.get32()? {
        KIND_RUNS => Case::Runs(Box::new(cursor.runs()?)),
        KIND_LOAD => Case::Load(cursor.load()?),
        _ => return Err(Broken::Malformed),
    };
    cursor.end()?;
    Ok(case)
}

impl Cursor<'_> {
    fn load(&mut self) -> Result<Load, Broken> {
        let [memory_length, fill, file_length] = self.sizes()?;
        within(memory_length <= MAX_MEMORY)?;
        let fill = fill.try_into().map_err(|_| Broken::Malformed)?;
        Ok(Load { memory_length, fill, file: self.take(file_length)?.to_vec() })
    }

    /// The bounds of what the header says come before all else in it.
    fn runs(&mut self) -> Result<Runs, Broken> {
        let [entries, memory_length, console_length, count, slots, chunks, given, runs] =
            self.sizes()?;
        let [keys, written] = [self.get64()?, self.get64()?];
        let numbers = self.size()?;
        within(memory_length <= MAX_MEMORY && console_length <= MAX_CONSOLE && runs <= MAX_RUNS)?;
        well_formed((1..=ALL_ENTRIES as usize).contains(&entries) && numbers == NAMES.len())?;
        well_formed(slots <= CAPACITY && given <= console_length)?;
        let numbers = (0..numbers).map(|_| self.get64()).collect::<Result<Vec<_>, _>>()?;
        let regs = registers(&numbers).ok_or(Broken::Malformed)?;
        let record = Record {
            regs: Registers { keys, written, ..regs },
            buffer: self.buffer(count as u32, slots)?,
        };
        let memory = self.chunked(memory_length, chunks)?;
        let mut console = vec![0; console_length];
        console[..given].copy_from_slice(self.take(given)?);
        let runs = (0..runs).map(|_| self.run()).collect::<Result<_, _>>()?;
        Ok(Runs { entries: entries as u32, memory, console, record, runs })
    }

    fn run(&mut self) -> Result<RunInput, Broken> {
        let keys = self.size()?;
        within(keys <= MAX_KEYS)?;
        let keys = (0..keys)
            .map(|_| Ok(Key { step: self.get64()?, byte: self.number(1)? as u8 }))
            .collect::<Result<_, _>>()?;
        Ok(RunInput { keys, budget: self.get64()? })
    }
}
