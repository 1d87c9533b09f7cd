//! What must come out of calls: lines of text. CALLS.md has their format.

use super::format::calls;
use super::mutants::CallMistake;
use super::{Call, Restore, Save};
use crate::digest::digest;
use crate::expect::shown_record;
use crate::listing::unlist::unlist_with;
use crate::listing::Listing;
use crate::snapshot::mistake::SnapshotMistake;
use crate::snapshot::read::read_with;
use crate::snapshot::save::save_with;
use std::io::{self, Write};

/// What a line of output has after the call's number, if anything.
pub type Answer = Option<String>;

/// What a call gives, with a planted mistake if one is named.
pub fn answers(call: &Call, mistake: Option<CallMistake>) -> Vec<Answer> {
    let in_listing = mistake.and_then(CallMistake::in_listing);
    let in_file = mistake.and_then(CallMistake::in_file);
    match call {
        Call::Lines { first, count, file } => {
            let listing = Listing::new(file, in_listing);
            let numbers = (0..*count).map(|nth| first.wrapping_add(u64::from(nth)));
            numbers.map(|number| listing.line(number)).collect()
        }
        Call::Read(line) => {
            let (answer, address, word) = unlist_with(line, in_listing);
            vec![Some(format!("{answer} {address} {word}"))]
        }
        Call::Save(save) => vec![Some(saved(save, in_file))],
        Call::Restore(restore) => vec![Some(restored(restore, in_file))],
    }
}

/// Answer, length and the digest of the whole lent file.
fn saved(save: &Save, mistake: Option<SnapshotMistake>) -> String {
    let mut file = vec![save.fill; save.file_length];
    let (answer, length) = save_with(&save.record, &save.memory, &save.console, &mut file, mistake);
    let mut list = vec![u64::from(answer), length];
    list.extend(digest(&file));
    joined(&list)
}

/// Answer, record and the digests of memory and console.
fn restored(restore: &Restore, mistake: Option<SnapshotMistake>) -> String {
    let mut memory = vec![restore.fill; restore.memory_length];
    let mut console = vec![restore.fill; restore.console_length];
    let (answer, record) = read_with(&restore.file, &mut memory, &mut console, mistake);
    let mut list = vec![u64::from(answer)];
    list.extend(shown_record(&record));
    list.extend(digest(&memory));
    list.extend(digest(&console));
    joined(&list)
}

fn joined(numbers: &[u64]) -> String {
    let words: Vec<String> = numbers.iter().map(u64::to_string).collect();
    words.join(" ")
}

/// Writes all that must come out of a stream.
pub fn expect(stream: &[u8], output: &mut impl Write) -> io::Result<()> {
    let mut number = 0;
    for call in calls(stream) {
        let call = match call {
            Ok(call) => call,
            Err(broken) => return writeln!(output, "broken {number} {broken}"),
        };
        for answer in answers(&call, None) {
            match answer {
                Some(text) => writeln!(output, "{number} {text}")?,
                None => writeln!(output, "{number}")?,
            }
        }
        number += 1;
    }
    writeln!(output, "end {number}")
}
