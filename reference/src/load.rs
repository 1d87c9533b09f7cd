//! Loading an executable. Document 01, "The record and the loaded program".

use crate::mistake::Mistake;
use crate::refusals::{is_bad_memory, lowest};
use crate::types::{Record, NO_KEY};
use crate::words;

pub const MAGIC: u32 = 0xC0DE_F00D;
pub const HEADER: usize = 16;

/// Loads `file` into `memory` and gives the answer and the record.
pub fn load(memory: &mut [u8], file: &[u8]) -> (u32, Record) {
    load_with(memory, file, None)
}

/// `load`, with a planted mistake.
pub fn load_with(memory: &mut [u8], file: &[u8], mistake: Option<Mistake>) -> (u32, Record) {
    let mut record = Record::default();
    let answer = load_answer(memory.len(), file, mistake);
    if answer != 0 {
        if mistake == Some(Mistake::RefusedLoadFresh) {
            record.regs.kbchar = NO_KEY;
        }
        if mistake == Some(Mistake::RefusedLoadZeros) {
            memory.fill(0);
        }
        return (answer, record);
    }
    let body = &file[HEADER..];
    memory[..body.len()].copy_from_slice(body);
    if mistake != Some(Mistake::LoadKeepsRest) {
        memory[body.len()..].fill(0);
    }
    record.regs.pc = words::get(file, 8, 4);
    record.regs.sp = memory.len() as u32;
    record.regs.kbchar = NO_KEY;
    record.regs.mode = mistake == Some(Mistake::LoadGivesDoubles);
    (0, record)
}

/// The lowest number that applies, or 0. What a file is too short for is not
/// judged; its magic, for a planted mistake, is.
fn load_answer(memory_length: usize, file: &[u8], mistake: Option<Mistake>) -> u32 {
    let makes = |other: Mistake| mistake == Some(other);
    let word = |at: u32| words::get(file, at, 4);
    let mut refusals = vec![(1, is_bad_memory(memory_length)), (7, file.len() < HEADER)];
    if file.len() >= 4 {
        let unjudged =
            |byte: u8| if makes(Mistake::MagicByte(byte)) { 0xff << (8 * byte) } else { 0 };
        let mask: u32 = !(0..4).map(unjudged).sum::<u32>();
        refusals.push((8, (word(0) ^ MAGIC) & mask != 0));
    }
    if file.len() >= HEADER {
        let (entry, data_start) = (word(8), word(12));
        let body = file.len() - HEADER;
        let counted = body + if makes(Mistake::BssCounts) { word(4) as usize } else { 0 };
        let signed = makes(Mistake::DataStartSigned) && (data_start as i32) < 0;
        let uneven = makes(Mistake::LoadAlignsData) && data_start % 4 != 0;
        let end = if makes(Mistake::EntryWraps) {
            u64::from(entry.wrapping_add(4))
        } else {
            u64::from(entry) + 4
        };
        refusals.push((9, body == 0 || counted > memory_length));
        refusals.push((10, (data_start as usize > body && !signed) || uneven));
        refusals.push((11, entry % 4 != 0 || end > u64::from(data_start)));
    }
    lowest(&refusals, mistake)
}

/// An executable's bytes from its header words and body.
pub fn executable(bss: u32, entry: u32, data_start: u32, body: &[u8]) -> Vec<u8> {
    let header = [MAGIC, bss, entry, data_start];
    let mut file: Vec<u8> = header.iter().flat_map(|word| word.to_le_bytes()).collect();
    file.extend_from_slice(body);
    file
}
