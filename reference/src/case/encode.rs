//! Writing a case in the format of FORMAT.md.

use super::numbers::numbers;
use super::parts::{chunks, put32, put64, put_chunks, put_length, put_slots, slots_to_give, used};
use super::{Case, Load, RunInput, Runs, KIND_LOAD, KIND_RUNS};
use super::{MAX_CASE, MAX_CONSOLE, MAX_KEYS, MAX_MEMORY, MAX_RUNS};

/// The bytes of a case. Panics on one beyond the format's bounds.
pub fn encode(case: &Case) -> Vec<u8> {
    let mut bytes = vec![0; 4];
    match case {
        Case::Runs(runs) => put_runs(&mut bytes, runs),
        Case::Load(load) => put_load(&mut bytes, load),
    }
    assert!(bytes.len() <= MAX_CASE, "a case of {} bytes", bytes.len());
    let length = bytes.len() as u32;
    bytes[..4].copy_from_slice(&length.to_le_bytes());
    bytes
}

fn put_load(bytes: &mut Vec<u8>, load: &Load) {
    put32(bytes, KIND_LOAD);
    put_length(bytes, load.memory_length, MAX_MEMORY);
    put32(bytes, u32::from(load.fill));
    put_length(bytes, load.file.len(), MAX_CASE);
    bytes.extend_from_slice(&load.file);
}

fn put_runs(bytes: &mut Vec<u8>, case: &Runs) {
    let chunks = chunks(&case.memory);
    let console = &case.console[..used(&case.console)];
    let (regs, buffer) = (&case.record.regs, &case.record.buffer);
    let slots = slots_to_give(buffer);
    put32(bytes, KIND_RUNS);
    put32(bytes, case.entries);
    put_length(bytes, case.memory.len(), MAX_MEMORY);
    put_length(bytes, case.console.len(), MAX_CONSOLE);
    put32(bytes, buffer.count);
    put32(bytes, slots.len() as u32);
    put32(bytes, chunks.len() as u32);
    put32(bytes, console.len() as u32);
    put_length(bytes, case.runs.len(), MAX_RUNS);
    put64(bytes, regs.keys);
    put64(bytes, regs.written);
    let numbers = numbers(regs);
    put32(bytes, numbers.len() as u32);
    numbers.iter().for_each(|number| put64(bytes, *number));
    put_slots(bytes, slots);
    put_chunks(bytes, &case.memory, &chunks);
    bytes.extend_from_slice(console);
    for run in &case.runs {
        put_run(bytes, run);
    }
}

fn put_run(bytes: &mut Vec<u8>, run: &RunInput) {
    put_length(bytes, run.keys.len(), MAX_KEYS);
    for key in &run.keys {
        put64(bytes, key.step);
        bytes.push(key.byte);
    }
    put64(bytes, run.budget);
}
