//! Telling planted mistakes apart: a call does whose output differs from what
//! must come out.

use super::answer::{answers, Answer};
use super::Call;
use crate::listing::list;
use crate::listing::mistake::{opcode_of, ListingMistake};
use crate::snapshot::mistake::SnapshotMistake;

/// A mistake that can be planted in what calls give.
#[derive(Clone, Copy, Debug, PartialEq, Eq)]
pub enum CallMistake {
    /// In listings and lines read back.
    Listing(ListingMistake),
    /// In machines saved and read.
    Snapshot(SnapshotMistake),
}

impl CallMistake {
    pub fn in_listing(self) -> Option<ListingMistake> {
        match self {
            CallMistake::Listing(mistake) => Some(mistake),
            CallMistake::Snapshot(_) => None,
        }
    }

    pub fn in_file(self) -> Option<SnapshotMistake> {
        match self {
            CallMistake::Listing(_) => None,
            CallMistake::Snapshot(mistake) => Some(mistake),
        }
    }
}

impl From<ListingMistake> for CallMistake {
    fn from(mistake: ListingMistake) -> CallMistake {
        CallMistake::Listing(mistake)
    }
}

impl From<SnapshotMistake> for CallMistake {
    fn from(mistake: SnapshotMistake) -> CallMistake {
        CallMistake::Snapshot(mistake)
    }
}

/// What must come out of each call, kept for all mistakes.
pub struct Judge<'a> {
    calls: &'a [Call],
    right: Vec<Vec<Answer>>,
    /// The calls, the shortest first.
    by_length: Vec<usize>,
    /// The same, by the opcodes of their words.
    by_opcode: Vec<Vec<usize>>,
}

impl<'a> Judge<'a> {
    pub fn new(calls: &'a [Call]) -> Judge<'a> {
        let right = calls.iter().map(|call| answers(call, None)).collect();
        let length = |number: &usize| match &calls[*number] {
            Call::Lines { file, .. } => file.len(),
            Call::Read(line) => line.len(),
            Call::Save(save) => save.file_length + save.memory.len(),
            Call::Restore(restore) => restore.file.len() + restore.memory_length,
        };
        let mut by_length: Vec<usize> = (0..calls.len()).collect();
        by_length.sort_by_key(length);
        let mut by_opcode = vec![Vec::new(); 256];
        for number in &by_length {
            for code in opcodes(&calls[*number]) {
                by_opcode[usize::from(code)].push(*number);
            }
        }
        Judge { calls, right, by_length, by_opcode }
    }

    /// Whether this call tells the mistake apart.
    fn tells(&self, number: usize, mistake: CallMistake) -> bool {
        answers(&self.calls[number], Some(mistake)) != self.right[number]
    }

    /// The shortest call that tells the mistake apart, among those of some kinds.
    pub fn telling(&self, mistake: impl Into<CallMistake>, kinds: &[u32]) -> Option<usize> {
        let mistake = mistake.into();
        let candidates = match mistake.in_listing().and_then(opcode_of) {
            Some(code) => &self.by_opcode[usize::from(code)],
            None => &self.by_length,
        };
        let asked = |number: &usize| kinds.contains(&self.calls[*number].kind());
        candidates.iter().copied().filter(asked).find(|number| self.tells(*number, mistake))
    }
}

/// The opcode bytes of the words that a call is about, each once.
fn opcodes(call: &Call) -> Vec<u8> {
    let lines = match call {
        Call::Lines { file, .. } => list(file).into_iter().map(String::into_bytes).collect(),
        Call::Read(line) => vec![line.clone()],
        Call::Save(_) | Call::Restore(_) => return Vec::new(),
    };
    // The low byte of the word.
    let digits = |line: &Vec<u8>| String::from_utf8(line.get(15..17)?.to_vec()).ok();
    let code = |line: &Vec<u8>| u8::from_str_radix(&digits(line)?, 16).ok();
    let mut codes: Vec<u8> = lines.iter().filter_map(code).collect();
    codes.sort_unstable();
    codes.dedup();
    codes
}
