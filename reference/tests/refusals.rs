//! Every refusal alone, and every two together: the lower number wins, and a
//! refused call leaves everything as it was. (The largest M is in `edges.rs`.)

use reference::case::Runs;
use reference::load::{executable, load, MAGIC};
use reference::machine::Machine;
use reference::types::{Entry, Record, Registers, Stop};

const M: usize = 8192;

/// One way to be refused: a number and a change to a good run.
type Break = (u32, fn(&mut Runs));

fn good() -> Runs {
    let regs = Registers { sp: 0x1000, pdir: 0x1000, kbchar: 3, ..Registers::default() };
    Runs::new(M, regs)
        .bytes(0, &[0x23, 7, 0, 0])
        .bytes(0x1000, &[9; 64])
        .console(&[1, 2, 3])
        .entry(5, 1, true, false)
        .entry(6, 0, false, true)
        .run_keys(1, &[(3, 65), (3, 66), (9, 67)])
}

fn keep_bytes(runs: &mut Runs, length: usize) {
    runs.memory.resize(length, 0x55);
}

fn slot(runs: &mut Runs) -> &mut Entry {
    &mut runs.record.buffer.slots[1]
}

#[rustfmt::skip]
const BREAKS: [Break; 25] = [
    (1, |runs| keep_bytes(runs, 0)),
    (1, |runs| keep_bytes(runs, 4095)),
    (1, |runs| keep_bytes(runs, 4097)),
    (1, |runs| keep_bytes(runs, M + 1)),
    (2, |runs| runs.record.regs.pc |= 2),
    (2, |runs| runs.record.regs.ivec |= 1),
    (2, |runs| runs.record.regs.sp |= 4),
    (2, |runs| runs.record.regs.usp |= 4),
    (2, |runs| runs.record.regs.ksp |= 1),
    (2, |runs| runs.record.regs.pdir |= 0x800),
    (2, |runs| runs.record.regs.pdir = M as u32),
    (2, |runs| runs.record.regs.pdir = 0xffff_f000),
    (2, |runs| runs.record.regs.count = 1 << 63),
    (2, |runs| runs.record.regs.count = u64::MAX),
    (3, |runs| runs.record.buffer.count = 65),
    (3, |runs| runs.record.buffer.count = u32::MAX),
    (3, |runs| slot(runs).page = 1 << 20),
    (3, |runs| slot(runs).frame = 2),
    (3, |runs| slot(runs).page = 5),
    (4, |runs| runs.runs[0].keys[2].step = 2),
    (4, |runs| runs.record.regs.keys = 4),
    (5, |runs| runs.record.regs.written = 4),
    (5, |runs| runs.record.regs.written = u64::MAX),
    (6, |runs| runs.runs[0].budget = 1_000_001),
    (6, |runs| runs.runs[0].budget = u64::MAX),
];

/// The answer of both machines; each must leave what it was given.
fn answers(runs: &Runs) -> [u32; 2] {
    let make = [Machine::buffered, Machine::table_reader];
    make.map(|make| {
        let mut machine = make(runs.memory.clone(), runs.console.clone(), &runs.record);
        let given = machine.record();
        let outcome = machine.run(&runs.runs[0].keys, runs.runs[0].budget);
        if outcome.answer != 0 {
            assert_eq!((outcome.steps, outcome.walks), (0, 0));
            assert!(machine.record() == given);
            assert!(machine.memory == runs.memory && machine.console == runs.console);
        }
        outcome.answer
    })
}

/// The table reader never gives 3: it has no entries.
fn without_three(numbers: &[u32]) -> u32 {
    numbers.iter().copied().filter(|number| *number != 3).min().unwrap_or(0)
}

#[test]
fn each_alone() {
    assert_eq!(answers(&good()), [0, 0]);
    for (number, change) in BREAKS {
        let mut runs = good();
        change(&mut runs);
        assert_eq!(answers(&runs), [number, without_three(&[number])]);
    }
}

#[test]
fn every_pair() {
    for (at, first) in BREAKS.iter().enumerate() {
        for second in BREAKS[at + 1..].iter().filter(|second| second.0 != first.0) {
            let mut runs = good();
            (second.1)(&mut runs);
            (first.1)(&mut runs);
            let expected = [first.0.min(second.0), without_three(&[first.0, second.0])];
            assert_eq!(answers(&runs), expected, "{} and {}", first.0, second.0);
        }
    }
}

#[test]
fn refusals_come_before_a_stop_and_budget_zero() {
    for (number, change) in BREAKS {
        let mut runs = good();
        runs.record.regs.stop = Stop::Halted;
        if number != 6 {
            runs.runs[0].budget = 0;
        }
        change(&mut runs);
        assert_eq!(answers(&runs)[0], number);
    }
}

#[test]
fn taken_keys_are_judged_and_equal_numbers_pass() {
    let mut runs = good();
    runs.record.regs.keys = 3;
    assert_eq!(answers(&runs), [0, 0]);
    runs.runs[0].keys[0].step = 4;
    assert_eq!(answers(&runs), [4, 4]);
}

#[test]
fn only_counted_entries_are_judged() {
    let mut runs = good();
    runs.record.buffer.slots[2] = Entry { page: u32::MAX, frame: u32::MAX, ..Entry::default() };
    runs.record.buffer.slots[3] = runs.record.buffer.slots[0];
    assert_eq!(answers(&runs)[0], 0);
    runs.record.buffer.count = 3;
    assert_eq!(answers(&runs)[0], 3);
}

/// A file's header words and body, and a memory's length, each to be broken.
#[derive(Clone)]
struct File {
    memory: usize,
    magic: u32,
    entry: u32,
    data_start: u32,
    body: usize,
    cut: usize,
}

const GOOD_FILE: File =
    File { memory: M, magic: MAGIC, entry: 4, data_start: 12, body: 20, cut: usize::MAX };

type FileBreak = (u32, fn(&mut File));

#[rustfmt::skip]
const FILE_BREAKS: [FileBreak; 13] = [
    (1, |file| file.memory = 0),
    (1, |file| file.memory = 4095),
    (1, |file| file.memory = M + 4),
    (7, |file| file.cut = 0),
    (7, |file| file.cut = 15),
    (8, |file| file.magic ^= 1),
    (8, |file| file.magic = MAGIC.swap_bytes()),
    (9, |file| file.body = 0),
    (9, |file| file.body = M + 1),
    (10, |file| file.data_start = M as u32 + 2),
    (10, |file| file.data_start = u32::MAX),
    (11, |file| file.entry |= 2),
    (11, |file| file.entry = 0xffff_fffc),
];

fn load_answer(file: &File) -> u32 {
    let mut bytes = executable(77, file.entry, file.data_start, &vec![0xee; file.body]);
    bytes[..4].copy_from_slice(&file.magic.to_le_bytes());
    bytes.truncate(file.cut);
    let mut memory = vec![0x55; file.memory];
    let (answer, record) = load(&mut memory, &bytes);
    if answer != 0 {
        assert_eq!(record, Record::default());
        assert!(memory.iter().all(|byte| *byte == 0x55));
    }
    answer
}

#[test]
fn load_alone_and_in_pairs() {
    assert_eq!(load_answer(&GOOD_FILE), 0);
    for (at, first) in FILE_BREAKS.iter().enumerate() {
        let mut broken = GOOD_FILE;
        (first.1)(&mut broken);
        assert_eq!(load_answer(&broken), first.0);
        for second in FILE_BREAKS[at + 1..].iter().filter(|second| second.0 != first.0) {
            let mut both = broken.clone();
            (second.1)(&mut both);
            assert_eq!(load_answer(&both), first.0, "{} and {}", first.0, second.0);
        }
    }
}
