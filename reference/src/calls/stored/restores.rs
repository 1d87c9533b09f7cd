//! Saved machines read: each file of a machine, and files changed in one place
//! or several.

use super::machines::{machines, plain, FILL};
use super::Named;
use crate::calls::{Restore, Save};
use crate::case::numbers::{widths, NAMES};
use crate::snapshot::layout::{registers_length, HEADER};
use crate::snapshot::save::save;
use crate::words;

/// Where the header has its words.
const PAGES: u32 = 0;
const ENTRIES: u32 = 4;
const CONSOLE: u32 = 8;
const OFFSETS: u32 = 12;

pub fn calls() -> Vec<Named> {
    let parts = [good(), lengths(), counts(), offsets(), memories()];
    [parts.concat(), flags(), registers(), entries(), pairs()].concat()
}

/// The file of a machine, with the memory and console it came from.
pub fn restore_of(machine: &Save) -> Restore {
    let mut file = vec![0; machine.file_length];
    let (answer, length) = save(&machine.record, &machine.memory, &machine.console, &mut file);
    assert!((answer, length) == (0, file.len() as u64), "saved to read again");
    Restore {
        file,
        memory_length: machine.memory.len(),
        console_length: machine.console.len(),
        fill: FILL,
    }
}

impl Restore {
    /// With another word in the file.
    fn word(mut self, at: u32, value: u32) -> Restore {
        words::put(&mut self.file, at, 4, value);
        self
    }

    /// With words changed by so much.
    fn moved(self, at: u32, by: u32) -> Restore {
        let value = words::get(&self.file, at, 4).wrapping_add(by);
        self.word(at, value)
    }

    fn length(mut self, length: usize) -> Restore {
        self.file.resize(length, 0);
        self
    }
}

fn named(name: impl Into<String>, restore: Restore) -> Named {
    (name.into(), restore.into())
}

fn base() -> Restore {
    restore_of(&plain())
}

/// Into the console they came from, and some into a longer one.
fn good() -> Vec<Named> {
    let mut list = Vec::new();
    for (name, machine) in machines() {
        let restore = restore_of(&machine);
        let console = machine.console.len();
        if (1..9).contains(&console) {
            let longer = Restore { console_length: console + 3, ..restore.clone() };
            list.push(named(format!("{name}, a longer console"), longer));
        }
        list.push(named(name, restore));
    }
    let whole = Restore { console_length: 4096, fill: 0, ..base() };
    list.push(named("plain, a console of 4,096, all zero", whole));
    list
}

/// 13 below the header's length; any other that isn't exact is 15.
fn lengths() -> Vec<Named> {
    let exact = base().file.len();
    let blocks = [entry(0) as usize, exact - 4096 + 4, exact - 4096];
    let lengths = [0, 1, 4, HEADER - 1, HEADER, HEADER + 1, exact - 4, exact - 1];
    let longer = [exact + 1, exact + 4, exact + 4096];
    let lengths = lengths.into_iter().chain(blocks).chain(longer);
    let mut list: Vec<Named> =
        lengths.map(|length| named(format!("{length} bytes"), base().length(length))).collect();
    // In words these are as long as they should be.
    let padded = restore_of(&plain().console(b"abcde", 1));
    let exact = padded.file.len();
    list.push(named("a byte more, a word begun", padded.length(exact + 1)));
    list
}

/// Where an entry stands.
fn entry(nth: u32) -> u32 {
    (HEADER + registers_length()) as u32 + 16 * nth
}

/// The file that these counts ask for, all zero behind its header.
fn counted(pages: u32, entries: u32, console: u32) -> Restore {
    let console_at = entry(entries);
    let words =
        [pages, entries, console, HEADER as u32, entry(0), console_at, console_at + console];
    let length = (console_at + console + 4096 * pages) as usize;
    let file: Vec<u8> = words.iter().flat_map(|word| word.to_le_bytes()).collect();
    let restore = Restore { file, memory_length: 4096, console_length: 5, fill: FILL };
    restore.length(length)
}

/// 14, with offsets and length that follow from the counts and without.
fn counts() -> Vec<Named> {
    let wrapped = |at: u32, value: u32| base().word(at, value);
    let pages = [0, 2, 1 << 20, (1 << 20) + 1, 0x8000_0001, u32::MAX];
    let entries = [65, 256, 258, 1 << 28, (1 << 28) + 2, u32::MAX];
    let consoles = [4, 6, 0x103, 0x8000_0000, 0x8000_0003, u32::MAX];
    let mut list = Vec::new();
    for (name, at, values) in
        [("pages", PAGES, pages), ("entries", ENTRIES, entries), ("console", CONSOLE, consoles)]
    {
        list.extend(values.map(|value| named(format!("{name} {value}"), wrapped(at, value))));
    }
    let fitting = [(0, 0, 0), (1, 0, 0), (2, 0, 0), (1, 65, 0), (1, 66, 0), (1, 0, 5), (1, 0, 6)];
    list.extend(fitting.map(|(pages, entries, console)| {
        let name = format!("{pages} pages, {entries} entries, {console} bytes, a file that fits");
        named(name, counted(pages, entries, console))
    }));
    let lent = |memory_length: usize| Restore { memory_length, ..counted(1, 0, 0) };
    list.push(named("1 page, a memory of 2", lent(8192)));
    list.push(named("1 page, a memory of 32", lent(131_072)));
    list.push(named("1 byte, no console", Restore { console_length: 0, ..counted(1, 0, 1) }));
    list.push(named("no byte, no console", Restore { console_length: 0, ..counted(1, 0, 0) }));
    list
}

/// 15: each offset by itself, and all as if the header were longer or none.
fn offsets() -> Vec<Named> {
    let places = (0..4).map(|nth| (nth, OFFSETS + 4 * nth));
    let by = [1, u32::MAX, 4, 0x1_0000, 0x8000_0000];
    let mut list: Vec<Named> = Vec::new();
    for (nth, at) in places.clone() {
        let moved = |by| named(format!("offset {nth} by {by}"), base().moved(at, by));
        list.extend(by.map(moved));
        let set = |value| named(format!("offset {nth} is {value}"), base().word(at, value));
        list.extend([0, u32::MAX].map(set));
    }
    for by in [4, 28u32.wrapping_neg()] {
        let moved = places.clone().fold(base(), |restore, (_, at)| restore.moved(at, by));
        list.push(named(format!("all offsets by {by}"), moved));
    }
    list
}

/// 1, whatever the file.
fn memories() -> Vec<Named> {
    let lent = |length: usize| Restore { memory_length: length, ..base() };
    [0, 1, 2048, 4095, 4097, 6144, 8193]
        .map(|length| named(format!("M {length}"), lent(length)))
        .into()
}

/// Where a number of the register block stands.
fn place(name: &str) -> u32 {
    let before = NAMES.iter().zip(widths()).take_while(|(other, _)| **other != name);
    HEADER as u32 + before.map(|(_, width)| width as u32).sum::<u32>()
}

/// 16: flags, marks and rights that are not 0 or 1, stop reasons and causes
/// without a meaning.
fn flags() -> Vec<Named> {
    let flags = ["user", "iena", "paging", "waiting", "key_pending", "timer_pending", "mode"];
    let mut list = Vec::new();
    let mut set = |name: &str, at: u32, values: &[u32]| {
        let set = |value: &u32| named(format!("{name} {value}"), base().word(at, *value));
        list.extend(values.iter().map(set));
    };
    for name in flags {
        set(name, place(name), &[1, 2, 0x100, u32::MAX]);
    }
    set("stop", place("stop"), &[3, 4, 0x100, u32::MAX]);
    set("cause", place("cause"), &[7, 8, 0x100, u32::MAX]);
    for (name, at) in [("user right", entry(0) + 8), ("write right", entry(1) + 12)] {
        set(name, at, &[0, 2, 0x100, u32::MAX]);
    }
    list
}

/// 16: what 2 refuses.
fn registers() -> Vec<Named> {
    let mut list = Vec::new();
    let mut set = |name: &str, at: u32, values: &[u32]| {
        let set = |value: &u32| named(format!("{name} {value}"), base().word(at, *value));
        list.extend(values.iter().map(set));
    };
    for (name, values) in [
        ("pc", &[1, 2, 0xffff_fffc][..]),
        ("ivec", &[1, 2, 0xffff_fffc]),
        ("sp", &[1, 4, 0xffff_fff8]),
        ("usp", &[1, 4, 0xffff_fff8]),
        ("ksp", &[1, 4, 0xffff_fff8]),
        ("pdir", &[1, 2048, 4096, 8192, 0xffff_f000]),
        ("a", &[u32::MAX]),
    ] {
        set(name, place(name), values);
    }
    let count = place("count");
    set("low half of the step count", count, &[0x8000_0000, u32::MAX]);
    set("high half of the step count", count + 4, &[0x7fff_ffff, 0x8000_0000, u32::MAX]);
    for name in ["f", "g"] {
        set(&format!("low half of {name}"), place(name), &[0x8000_0000, u32::MAX]);
        set(&format!("high half of {name}"), place(name) + 4, &[0x7ff0_0000, 0xfff4_5678]);
    }
    let most = base().word(count, u32::MAX).word(count + 4, 0x7fff_ffff);
    list.push(named("step count 2^63 - 1", most));
    list.push(named("pdir M, paging", base().word(place("pdir"), 4096).word(place("paging"), 1)));
    list
}

/// 16: what 3 refuses.
fn entries() -> Vec<Named> {
    let (first, second) = (entry(0), entry(1));
    let apart = restore_of(&plain().entry(7, 0, true, true));
    vec![
        named("page 2^20 - 1", base().word(first, (1 << 20) - 1)),
        named("page 2^20", base().word(first, 1 << 20)),
        named("page 2^32 - 1", base().word(second, u32::MAX)),
        named("page 2^20 + 5", base().word(second, (1 << 20) + 5)),
        named("frame M/4,096", base().word(second + 4, 1)),
        named("frame 2^20", base().word(first + 4, 1 << 20)),
        named("frame 2^32 - 1", base().word(first + 4, u32::MAX)),
        named("a page twice", base().word(second, 5)),
        named("a page twice, one between", apart.word(first, 7)),
    ]
}

/// What a file is refused for with a number; 13 leaves as much of the header as
/// it can.
fn refuse(restore: Restore, number: u32) -> Restore {
    let length = restore.file.len();
    match number {
        1 => Restore { memory_length: 4097, ..restore },
        13 => restore.length(HEADER - 1),
        14 => restore.moved(PAGES, 1),
        15 => restore.length(length + 1),
        _ => restore.word(place("pc"), 2),
    }
}

/// Every two at once, and all. With M 4,097 a file's pages are unlike; with 0
/// they needn't be.
fn pairs() -> Vec<Named> {
    let numbers = [1, 16, 15, 14, 13];
    let with = |refused: &[u32]| {
        let restore = refused.iter().fold(base(), |restore, number| refuse(restore, *number));
        let names: Vec<String> = refused.iter().map(u32::to_string).collect();
        named(format!("refused: {}", names.join(", ")), restore)
    };
    let mut list = Vec::new();
    for (at, high) in numbers.iter().enumerate() {
        list.extend(numbers[at + 1..].iter().map(|low| with(&[*high, *low])));
    }
    list.push(with(&numbers));
    list.push(with(&[1, 16, 15, 14]));
    let none = |restore: Restore| Restore { memory_length: 0, ..restore };
    list.push(named("M 0, no pages", none(counted(0, 0, 0))));
    list.push(named(
        "M 0, no pages, a byte more",
        none(counted(0, 0, 0).length(entry(0) as usize + 1)),
    ));
    list.push(named("M 0, no pages, pc 2", none(counted(0, 0, 0).word(place("pc"), 2))));
    list.push(named("14, 15: fewer pages, as long", base().word(PAGES, 0)));
    list.push(named("14, 16: 2 pages that fit", counted(2, 0, 0).word(place("pc"), 2)));
    list.push(named(
        "15, 16: an offset and a flag",
        base().moved(OFFSETS + 12, 4).word(place("user"), 2),
    ));
    list
}
