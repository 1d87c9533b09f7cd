//! The machine: registers, page buffer, lent memory and console.

use crate::coverage::Coverage;
use crate::mistake::Mistake;
use crate::types::{Buffer, Record, Registers};
use crate::walks::Walks;

#[derive(Clone)]
pub struct Machine {
    pub regs: Registers,
    /// `None` is the table reader of demand 3, which keeps no entry.
    pub buffer: Option<Buffer>,
    pub memory: Vec<u8>,
    pub console: Vec<u8>,
    /// A planted mistake; `None` is the machine of document 01.
    pub mistake: Option<Mistake>,
    /// The step count at the first store of demand 3's kind.
    pub held_store: Option<u64>,
    /// What came of the table walks of the latest run.
    pub walks: Walks,
    pub coverage: Coverage,
    /// The opcode byte of the step, for planted mistakes.
    pub opcode: u8,
}

impl Machine {
    /// The machine with the page buffer.
    pub fn buffered(memory: Vec<u8>, console: Vec<u8>, record: &Record) -> Machine {
        let unbuffered = Machine::table_reader(memory, console, record);
        Machine { buffer: Some(record.buffer.clone()), ..unbuffered }
    }

    /// The record as a run returns it; the table reader's has no entries.
    pub fn record(&self) -> Record {
        Record { regs: self.regs.clone(), buffer: self.buffer.clone().unwrap_or_default() }
    }

    /// M. Only asked once M is known to be accepted, so it fits 32 bits.
    pub fn memory_size(&self) -> u32 {
        self.memory.len() as u32
    }

    pub fn makes(&self, mistake: Mistake) -> bool {
        self.mistake == Some(mistake)
    }

    /// The rule's value, unless the mistake is planted.
    pub fn pick<T>(&self, mistake: Mistake, planted: T, rule: T) -> T {
        if self.makes(mistake) {
            planted
        } else {
            rule
        }
    }
}
