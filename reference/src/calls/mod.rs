//! Calls that are no runs: what is asked, and what must come out. The format is
//! CALLS.md's.

pub mod answer;
pub mod broken;
pub mod broken_machines;
pub mod format;
pub mod machines;
pub mod mutants;
pub mod near;
pub mod stored;

use crate::types::Record;

/// Bounds a reader with fixed buffers may rely on.
pub const MAX_CALL: usize = 131_072;
pub const MAX_LINES: usize = 8_193;
pub const MAX_MEMORY: usize = 131_072;
pub const MAX_CONSOLE: usize = 4_096;
pub const MAX_FILE: usize = 139_264;

/// Numbers of the kinds of call.
pub const KIND_LINES: u32 = 1;
pub const KIND_READ: u32 = 2;
pub const KIND_SAVE: u32 = 3;
pub const KIND_RESTORE: u32 = 4;
pub const LAST_KIND: u32 = KIND_RESTORE;

#[derive(Clone, Debug, PartialEq, Eq)]
pub enum Call {
    /// `count` lines of a file's listing, from number `first` on, modulo 2^64.
    Lines { first: u64, count: u32, file: Vec<u8> },
    /// A listed line read back.
    Read(Vec<u8>),
    /// A machine saved.
    Save(Box<Save>),
    /// A saved machine read.
    Restore(Restore),
}

/// A machine to save into a file of `file_length` bytes of `fill`.
#[derive(Clone, Debug, PartialEq, Eq)]
pub struct Save {
    pub record: Record,
    pub memory: Vec<u8>,
    pub console: Vec<u8>,
    pub file_length: usize,
    pub fill: u8,
}

/// A file to read into a memory and a console full of `fill`.
#[derive(Clone, Debug, PartialEq, Eq)]
pub struct Restore {
    pub file: Vec<u8>,
    pub memory_length: usize,
    pub console_length: usize,
    pub fill: u8,
}

impl Call {
    pub fn kind(&self) -> u32 {
        match self {
            Call::Lines { .. } => KIND_LINES,
            Call::Read(_) => KIND_READ,
            Call::Save(_) => KIND_SAVE,
            Call::Restore(_) => KIND_RESTORE,
        }
    }

    /// The first `count` lines of a file's listing.
    pub fn first_lines(count: usize, file: &[u8]) -> Call {
        Call::Lines { first: 0, count: count as u32, file: file.to_vec() }
    }

    pub fn read(line: impl AsRef<[u8]>) -> Call {
        Call::Read(line.as_ref().to_vec())
    }
}

impl From<Save> for Call {
    fn from(save: Save) -> Call {
        Call::Save(Box::new(save))
    }
}

impl From<Restore> for Call {
    fn from(restore: Restore) -> Call {
        Call::Restore(restore)
    }
}
