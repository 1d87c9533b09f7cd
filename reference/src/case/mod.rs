//! Test cases: what a machine is given. The byte format is FORMAT.md's.

pub mod decode;
pub mod encode;
pub mod numbers;
pub mod parts;

use crate::types::{Entry, Key, Record, Registers};
use crate::words;

/// Bounds a reader with fixed buffers may rely on.
pub const MAX_MEMORY: usize = 2_097_152;
pub const MAX_CONSOLE: usize = 4_096;
pub const MAX_KEYS: usize = 64;
pub const MAX_RUNS: usize = 64;
pub const MAX_CASE: usize = 131_072;

/// Numbers of the two kinds of case.
pub const KIND_RUNS: u32 = 1;
pub const KIND_LOAD: u32 = 2;

/// The library's entries, in the order of their lines: `run`, `run_packed`,
/// `single_step`, and `run_packed` in calls of budget 1.
pub const ENTRIES: [u32; 4] = [1, 2, SINGLE_STEP, 8];
/// The one that reports no walks.
pub const SINGLE_STEP: u32 = 4;
/// The sum of all of them.
pub const ALL_ENTRIES: u32 = 15;

#[derive(Clone, Debug, Default, PartialEq, Eq)]
pub struct RunInput {
    pub keys: Vec<Key>,
    pub budget: u64,
}

/// A starting memory, console and record, and a list of runs handed on.
#[derive(Clone, Debug, PartialEq, Eq)]
pub struct Runs {
    /// The entries that make the runs, each from this start: a sum of `ENTRIES`.
    pub entries: u32,
    pub memory: Vec<u8>,
    pub console: Vec<u8>,
    pub record: Record,
    pub runs: Vec<RunInput>,
}

/// A file to load into a memory of `memory_length` bytes of `fill`.
#[derive(Clone, Debug, PartialEq, Eq)]
pub struct Load {
    pub memory_length: usize,
    pub fill: u8,
    pub file: Vec<u8>,
}

#[derive(Clone, Debug, PartialEq, Eq)]
pub enum Case {
    Runs(Box<Runs>),
    Load(Load),
}

/// Building cases by hand.
impl Runs {
    pub fn new(memory_length: usize, regs: Registers) -> Runs {
        let record = Record { regs, ..Record::default() };
        let (memory, console) = (vec![0; memory_length], Vec::new());
        Runs { entries: ALL_ENTRIES, memory, console, record, runs: Vec::new() }
    }

    /// Puts words into memory from `at` on.
    pub fn words(mut self, at: u32, list: &[u32]) -> Runs {
        for (nth, word) in list.iter().enumerate() {
            words::put(&mut self.memory, at + 4 * nth as u32, 4, *word);
        }
        self
    }

    pub fn bytes(mut self, at: usize, list: &[u8]) -> Runs {
        self.memory[at..at + list.len()].copy_from_slice(list);
        self
    }

    pub fn console(mut self, console: &[u8]) -> Runs {
        self.console = console.to_vec();
        self
    }

    pub fn entry(mut self, page: u32, frame: u32, user: bool, write: bool) -> Runs {
        let buffer = &mut self.record.buffer;
        buffer.slots[buffer.count as usize] = Entry { page, frame, user, write, origin: None };
        buffer.count += 1;
        self
    }

    pub fn run(self, budget: u64) -> Runs {
        self.run_keys(budget, &[])
    }

    pub fn run_keys(mut self, budget: u64, keys: &[(u64, u8)]) -> Runs {
        let keys = keys.iter().map(|(step, byte)| Key { step: *step, byte: *byte }).collect();
        self.runs.push(RunInput { keys, budget });
        self
    }
}

impl Case {
    /// Bytes of the lent memory.
    pub fn bytes(&self) -> u64 {
        match self {
            Case::Runs(runs) => runs.memory.len() as u64,
            Case::Load(load) => load.memory_length as u64,
        }
    }
}

impl From<Runs> for Case {
    fn from(runs: Runs) -> Case {
        Case::Runs(Box::new(runs))
    }
}
