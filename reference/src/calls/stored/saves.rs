//! Machines saved: into files of each length, and each refusal. 15 would need a
//! lent file of more than 4 GiB.

use super::machines::{fresh, machines, plain};
use super::Named;
use crate::calls::Save;
use crate::snapshot::layout::{registers_length, HEADER};
use crate::types::{Entry, CAPACITY};

pub fn calls() -> Vec<Named> {
    let good = machines().into_iter().map(|(name, machine)| (name, machine.into()));
    let good: Vec<Named> = good.collect();
    [good, lengths(), memories(), registers(), buffers(), consoles(), pairs()].concat()
}

fn saved(name: impl Into<String>, save: Save) -> Named {
    (name.into(), save.into())
}

/// `plain`, with a change.
fn changed(name: impl Into<String>, change: impl FnOnce(&mut Save)) -> Named {
    saved(name, plain().with(change))
}

/// Later bytes stay, whatever they are; a byte less is 13.
fn lengths() -> Vec<Named> {
    let exact = plain().file_length;
    let short = [0, 1, HEADER - 1, HEADER, HEADER + registers_length(), exact - 4, exact - 1];
    let lengths = short.into_iter().chain([exact + 1, exact + 4, exact + 100]);
    let mut list: Vec<Named> = lengths
        .map(|length| changed(format!("a file of {length}"), |save| save.file_length = length))
        .collect();
    for fill in [0, 0xff] {
        list.push(changed(format!("a longer file full of {fill}"), |save| {
            save.fill = fill;
            save.file_length += 9;
        }));
        list.push(changed(format!("a shorter file full of {fill}"), |save| {
            save.fill = fill;
            save.file_length -= 9;
        }));
    }
    list
}

/// 1 alone: `fresh` has pdir 0 and no entries.
fn memories() -> Vec<Named> {
    let lengths = [1, 2048, 4095, 4097, 6144, 8191, 8193];
    let lent = |length: usize| {
        let machine = fresh().with(|save| save.memory = vec![0; length]).exact();
        saved(format!("M {length}"), machine.with(|save| save.file_length += 4096))
    };
    lengths.map(lent).into()
}

/// 2: each number on half of what it must be a multiple of, pdir beyond memory,
/// step counts of 2^63 and more.
#[rustfmt::skip]
fn registers() -> Vec<Named> {
    vec![
        changed("pc 1", |save| save.record.regs.pc = 1),
        changed("pc 2", |save| save.record.regs.pc = 2),
        changed("ivec 2", |save| save.record.regs.ivec = 2),
        changed("sp 4", |save| save.record.regs.sp = 4),
        changed("usp 4", |save| save.record.regs.usp = 4),
        changed("ksp 4", |save| save.record.regs.ksp = 4),
        changed("pdir 2,048", |save| save.record.regs.pdir = 2048),
        changed("pdir M", |save| save.record.regs.pdir = 4096),
        changed("pdir M, paging", |save| {
            save.record.regs.pdir = 4096;
            save.record.regs.paging = true;
        }),
        changed("step count 2^63", |save| save.record.regs.count = 1 << 63),
        changed("step count 2^64 - 1", |save| save.record.regs.count = u64::MAX),
    ]
}

/// 3.
fn buffers() -> Vec<Named> {
    let full = || machines().into_iter().find(|machine| machine.0 == "64 entries");
    let full = || full().map_or_else(plain, |machine| machine.1);
    let counted = |machine: Save, count: u32| {
        let long = machine.file_length + 4096;
        machine.with(|save| {
            save.record.buffer.count = count;
            save.file_length = long;
        })
    };
    let slot = |name: &str, nth: usize, change: fn(&mut Entry)| {
        changed(name, |save| change(&mut save.record.buffer.slots[nth]))
    };
    let apart = plain().entry(5, 0, false, false);
    vec![
        saved("65 counted, 64 good slots", counted(full(), CAPACITY as u32 + 1)),
        saved("65 counted", counted(plain(), CAPACITY as u32 + 1)),
        saved("256 counted", counted(plain(), 256)),
        saved("2^32 - 1 counted", counted(plain(), u32::MAX)),
        slot("page 2^20", 0, |entry| entry.page = 1 << 20),
        slot("page 2^32 - 1", 1, |entry| entry.page = u32::MAX),
        slot("frame M/4,096", 1, |entry| entry.frame = 1),
        slot("frame 2^32 - 1", 0, |entry| entry.frame = u32::MAX),
        slot("a page twice", 1, |entry| entry.page = 5),
        saved("a page twice, one between", apart),
    ]
}

/// 5.
fn consoles() -> Vec<Named> {
    let counts = [6, 4097, 1 << 32, (1 << 32) + 3, 1 << 63, u64::MAX];
    let counted = |count: u64| {
        changed(format!("console count {count} of 5"), |save| {
            save.record.regs.written = count;
            save.file_length += 5000;
        })
    };
    let none = fresh().with(|save| save.record.regs.written = 1);
    let mut list: Vec<Named> = counts.map(counted).into();
    list.push(saved("console count 1, no console", none.with(|save| save.file_length += 1)));
    list
}

/// What `plain` is refused for with a number.
fn refuse(save: &mut Save, number: u32) {
    match number {
        1 => save.memory.truncate(4095),
        2 => save.record.regs.pc = 2,
        3 => save.record.buffer.slots[1].page = 5,
        5 => save.record.regs.written = 6,
        _ => save.file_length = 100,
    }
}

/// Each alone and every two at once, and all. 3 comes with every M below a
/// page that holds entries, so that these are left out beside 1.
fn pairs() -> Vec<Named> {
    let numbers = [1, 2, 3, 5, 13];
    let mut list = Vec::new();
    let with = |refused: &[u32]| {
        let empty = refused.contains(&1) && !refused.contains(&3);
        let mut save = if empty { fresh().console(b"abcde", 3) } else { plain() };
        save.file_length += 4096;
        refused.iter().for_each(|number| refuse(&mut save, *number));
        let names: Vec<String> = refused.iter().map(u32::to_string).collect();
        saved(format!("refused: {}", names.join(", ")), save)
    };
    for (at, low) in numbers.iter().enumerate() {
        list.push(with(&[*low]));
        list.extend(numbers[at + 1..].iter().map(|high| with(&[*low, *high])));
    }
    list.push(with(&numbers));
    list.push(saved("M 0", fresh().with(|save| save.memory.clear())));
    list
}
