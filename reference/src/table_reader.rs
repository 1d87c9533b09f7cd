//! Demand 3's second machine: its own memory and console, a record without
//! page buffer, the same rules. With paging on each access walks from pdir,
//! with the same checks, faults, vadr, cause and marks, and no entry is kept;
//! PDIR and SPAG have nothing to empty, and refusal 3 never comes. Its walks are
//! counted, and compared with nobody's.
//!
//! In this program it is a `Machine` whose `buffer` is `None`: `hit` finds
//! nothing, `keep` and `empty` do nothing, `is_bad_buffer` is false.

use crate::coverage::Coverage;
use crate::machine::Machine;
use crate::types::Record;
use crate::walks::Walks;

impl Machine {
    /// Fed the starting memory, console and record; the record's entries are
    /// no part of it.
    pub fn table_reader(memory: Vec<u8>, console: Vec<u8>, record: &Record) -> Machine {
        Machine {
            regs: record.regs.clone(),
            buffer: None,
            memory,
            console,
            mistake: None,
            held_store: None,
            walks: Walks::default(),
            coverage: Coverage::default(),
            opcode: 0,
        }
    }
}
