//! FORMAT.md's examples are what the program reads and writes.

use reference::case::decode::read_all;
use reference::case::encode::encode;
use reference::case::{Case, Load, Runs};
use reference::expect::expect;
use reference::types::{Cause, Entry, Registers, Stop};
use reference::worked::op;

const FORMAT: &str = include_str!("../FORMAT.md");

fn example() -> Case {
    let regs = Registers { sp: 4096, ..Registers::default() };
    let mut runs = Runs::new(4096, regs).words(0, &[op("LI", 7)]).run(1);
    runs.entries = 5;
    runs.into()
}

/// The same with paging: the word at 0 is directory and table.
fn paged_example() -> Case {
    let regs = Registers { sp: 4096, pc: 4, paging: true, ..Registers::default() };
    let mut runs = Runs::new(4096, regs).words(0, &[7, op("LI", 7)]).run(1);
    runs.entries = 13;
    runs.into()
}

/// The example after the `nth` such title.
fn documented(nth: usize, example: fn() -> Case) {
    let text = FORMAT.split("## Example").nth(nth).unwrap();
    let (input, output) = text.split_once("gives").unwrap();
    let block = |text: &'static str| text.lines().filter_map(|line| line.strip_prefix("    "));
    let digits: String = block(input).flat_map(|line| line.split(' ')).collect();
    let bytes: Vec<u8> = (0..digits.len() / 2)
        .map(|at| u8::from_str_radix(&digits[2 * at..2 * at + 2], 16).unwrap())
        .collect();
    assert_eq!(encode(&example()), bytes);
    assert_eq!(read_all(&bytes).unwrap(), [example()]);
    let mut written = Vec::new();
    expect(&bytes, &mut written).unwrap();
    assert_eq!(written, block(output).flat_map(|line| [line, "\n"]).collect::<String>().as_bytes());
}

#[test]
fn documented_examples() {
    documented(1, example);
    documented(2, paged_example);
}

#[test]
fn every_field_comes_back() {
    let regs = Registers {
        a: 1,
        b: 2,
        c: 3,
        sp: 8,
        usp: 16,
        ksp: 24,
        pc: 4,
        ivec: 12,
        pdir: 4096,
        vadr: 5,
        timer: 6,
        timeout: 7,
        kbchar: 9,
        user: true,
        iena: false,
        paging: true,
        waiting: true,
        stop: Stop::NoFrame,
        count: 1 << 40,
        keys: 1 << 41,
        written: 1 << 42,
        key_pending: true,
        timer_pending: false,
        cause: Cause::FrameBeyond,
        mode: true,
        f: 0x7ff0_0000_0000_0001,
        g: u64::MAX,
    };
    let mut runs = Runs::new(8192, regs)
        .bytes(100, &[1, 2, 0, 0, 3])
        .bytes(8191, &[9])
        .console(&[0, 5, 0])
        .entry(1, 2, true, false)
        .run(0)
        .run_keys(u64::MAX, &[(1 << 50, 255), (3, 0)]);
    runs.entries = 3;
    runs.record.buffer.count = 70;
    runs.record.buffer.slots[63] =
        Entry { page: 7, frame: 8, user: false, write: true, origin: None };
    let load = Case::Load(Load { memory_length: 4095, fill: 0xaa, file: vec![1, 2, 3] });
    let cases = [runs.into(), load, example()];
    let stream: Vec<u8> = cases.iter().flat_map(encode).collect();
    assert_eq!(read_all(&stream).unwrap(), cases);
    let ended = [&stream[..], &[0; 4], &[1; 9]].concat();
    assert_eq!(read_all(&ended).unwrap(), cases);
}
