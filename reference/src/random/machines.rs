//! Random machines to save, and files of saved ones, whole or damaged.

use super::record::stale_buffer;
use super::rng::Rng;
use super::scene::{break_something, runs_case_of, Purpose};
use super::space::Space;
use crate::calls::{Restore, Save, MAX_CONSOLE, MAX_FILE, MAX_MEMORY};
use crate::case::numbers::{widths, NAMES};
use crate::case::Runs;
use crate::machine::Machine;
use crate::snapshot::layout::{registers_length, saved_length, ENTRY, HEADER};
use crate::snapshot::save::save;
use crate::types::{Entry, PAGE};
use crate::words;

/// A machine as a case of runs begins with it, or as its first run leaves it.
fn machine(rng: &mut Rng, number: u64) -> Runs {
    let frames = rng.pick(&[1, 1, 1, 1, 2, 2, 2, 3, 4, 8, 32]);
    let mut runs = runs_case_of(rng, number, frames, Purpose::Any);
    if rng.percent(25) {
        let space = Space::unpaged(rng, PAGE * frames);
        runs.record.buffer = stale_buffer(rng, &space);
    }
    if rng.percent(3) {
        let length = rng.pick(&[255, 256, 257, MAX_CONSOLE]);
        runs.console = (0..length).map(|nth| nth as u8).collect();
        runs.record.regs.written = u64::from(rng.below(length as u32 + 1));
    }
    if let (Some(run), true) = (runs.runs.first(), rng.percent(60)) {
        let mut machine = Machine::buffered(runs.memory, runs.console, &runs.record);
        machine.run(&run.keys, run.budget.min(60));
        runs.record = machine.record();
        (runs.memory, runs.console) = (machine.memory, machine.console);
        // Where an entry came from is no part of the record.
        let unwalked = |entry: &mut Entry| entry.origin = None;
        runs.record.buffer.slots.iter_mut().for_each(unwalked);
    }
    runs
}

/// A machine to save, often one that is refused, into a file that fits or not.
pub fn random_save(rng: &mut Rng, number: u64) -> Save {
    let mut runs = machine(rng, number);
    let exact = saved_length(&runs.record, runs.memory.len());
    if rng.percent(35) {
        for _ in 0..1 + rng.below(2) {
            break_something(rng, &mut runs, Purpose::Any);
        }
    }
    let file_length = match rng.weighted(&[5, 4, 2, 2]) {
        0 => exact,
        1 => exact + rng.below(200) as usize,
        2 => exact - 1 - rng.below(40) as usize,
        _ => rng.pick(&[0, 27, 28, exact / 2, exact - 1, exact + 1]),
    };
    let fill = rng.pick(&[0, 0x55, 0xff]);
    let Runs { record, memory, console, .. } = runs;
    Save { record, memory, console, file_length, fill }
}

/// A saved machine to read, mostly damaged in one place.
pub fn random_restore(rng: &mut Rng, number: u64) -> Restore {
    let runs = machine(rng, number);
    let mut file = vec![0; saved_length(&runs.record, runs.memory.len())];
    save(&runs.record, &runs.memory, &runs.console, &mut file);
    let written = runs.record.regs.written as usize;
    let console_length = rng.pick(&[runs.console.len(), written, written + 7]).min(MAX_CONSOLE);
    let fill = rng.pick(&[0, 0x55, 0xff]);
    let mut restore = Restore { file, memory_length: runs.memory.len(), console_length, fill };
    for _ in 0..rng.pick(&[0, 0, 1, 1, 1, 1, 1, 2]) {
        damage(rng, &mut restore);
    }
    restore
}

/// One thing changed in the file or in what is lent.
fn damage(rng: &mut Rng, restore: &mut Restore) {
    let length = restore.file.len();
    match rng.weighted(&[4, 4, 2, 4, 3, 5, 4, 4, 2, 1]) {
        0 => restore.file.resize(other_length(rng, length).min(MAX_FILE), 0),
        1 => {
            let memory = restore.memory_length;
            let others = [0, 1, 4095, memory + 1, memory.saturating_sub(1)];
            let pages = [memory + 4096, memory.saturating_sub(4096), 2 * memory, 2048];
            restore.memory_length = rng.pick(&[&others[..], &pages].concat()).min(MAX_MEMORY);
        }
        2 => {
            let shorter = rng.below(restore.console_length as u32 + 1) as usize;
            restore.console_length = rng.pick(&[0, shorter, restore.console_length / 2]);
        }
        3 => {
            let at = 4 * rng.below(7);
            change_word(rng, &mut restore.file, at);
        }
        4 => recount(rng, &mut restore.file),
        5 => change_number(rng, restore),
        6 => change_entry(rng, restore),
        7 => {
            let at = rng.below(length.min(400) as u32 + 1) as usize;
            flip(rng, &mut restore.file, at);
        }
        8 => {
            let at = rng.below(length as u32 + 1) as usize;
            flip(rng, &mut restore.file, at);
        }
        _ => restore.file.truncate(rng.below(HEADER as u32 + 2) as usize),
    }
}

fn other_length(rng: &mut Rng, length: usize) -> usize {
    let by = rng.pick(&[1, 1, 2, 3, 4, 16, 4096]);
    let anywhere = rng.below(length as u32 + 1) as usize;
    rng.pick(&[length + by, length.saturating_sub(by), anywhere, 0, 26, 27, 28, 29])
}

fn flip(rng: &mut Rng, file: &mut [u8], at: usize) {
    if let Some(byte) = file.get_mut(at) {
        *byte ^= 1 << rng.below(8);
    }
}

/// Another word in the file, if it has one there.
fn put(file: &mut [u8], at: u32, value: u32) {
    if at as usize + 4 <= file.len() {
        words::put(file, at, 4, value);
    }
}

fn get(file: &[u8], at: u32) -> u32 {
    if at as usize + 4 <= file.len() {
        words::get(file, at, 4)
    } else {
        0
    }
}

fn change_word(rng: &mut Rng, file: &mut [u8], at: u32) {
    let by = rng.pick(&[1, 1, u32::MAX, 4, 16, 1 << 16, 1 << 20, 1 << 31, 28]);
    let moved = get(file, at).wrapping_add(by);
    let any = rng.word();
    let value = rng.pick(&[moved, moved, moved, 0, u32::MAX, any]);
    put(file, at, value);
}

/// A header of other counts, offsets that follow from them and a file of that
/// length, if it is not too long.
fn recount(rng: &mut Rng, file: &mut Vec<u8>) {
    let [pages, entries, console] = [0, 4, 8].map(|at| get(file, at));
    let less = rng.percent(50);
    let by = if less { u32::MAX } else { 1 };
    let more = rng.below(5);
    let (pages, entries, console) = match rng.below(4) {
        0 => (pages.wrapping_add(by), entries, console),
        1 => (pages, 63 + more, console),
        2 => (pages, entries.saturating_add_signed(by as i32), console),
        _ => (pages, entries, console.saturating_add_signed(by as i32)),
    };
    let entries_at = HEADER as u64 + registers_length() as u64;
    let console_at = entries_at + u64::from(entries) * ENTRY as u64;
    let memory_at = console_at + u64::from(console);
    let length = memory_at + u64::from(pages) * u64::from(PAGE);
    let offsets = [HEADER as u64, entries_at, console_at, memory_at].map(|offset| offset as u32);
    if length <= MAX_FILE as u64 {
        file.resize(length as usize, 0);
    }
    for (nth, word) in [&[pages, entries, console][..], &offsets].concat().iter().enumerate() {
        put(file, 4 * nth as u32, *word);
    }
}

/// A number of the register block, mostly one that is judged.
fn change_number(rng: &mut Rng, restore: &mut Restore) {
    let nth = rng.below(NAMES.len() as u32) as usize;
    let nth = if rng.percent(70) {
        rng.pick(&[3, 4, 5, 6, 7, 8, 13, 16, 17, 18, 19, 20, 22])
    } else {
        nth
    };
    let at = HEADER as u32 + widths()[..nth].iter().sum::<usize>() as u32;
    let long = widths()[nth] == 8;
    let value = match NAMES[nth] {
        "pdir" => rng.pick(&[restore.memory_length as u32, PAGE / 2, 0, 0xffff_f000]),
        "sp" | "usp" | "ksp" | "pc" | "ivec" => get(&restore.file, at) ^ (1 << rng.below(5)),
        _ if long => 0,
        _ => rng.pick(&[0, 1, 2, 3, 4, 5, 7, 8, 9, 0x100, 0x101, 1 << 31, u32::MAX]),
    };
    put(&mut restore.file, at, value);
    if long {
        put(&mut restore.file, at + 4, rng.pick(&[0, 0x7fff_ffff, 0x8000_0000, u32::MAX]));
    }
}

/// A word of an entry, where there is one.
fn change_entry(rng: &mut Rng, restore: &mut Restore) {
    let count = get(&restore.file, 4).min(64);
    if count == 0 {
        return change_number(rng, restore);
    }
    let first = (HEADER + registers_length()) as u32;
    let place = |nth: u32| first + ENTRY as u32 * nth;
    let (one, other) = (rng.below(count), rng.below(count));
    let (at, value) = match rng.below(4) {
        0 => (0, rng.pick(&[0, 1 << 20, (1 << 20) - 1, u32::MAX])),
        1 => (4, rng.pick(&[0, restore.memory_length as u32 / PAGE, 1 << 20, u32::MAX])),
        2 => (8 + 4 * rng.below(2), rng.pick(&[0, 1, 2, 0x100, u32::MAX])),
        _ => (0, get(&restore.file, place(other))),
    };
    put(&mut restore.file, place(one) + at, value);
}
