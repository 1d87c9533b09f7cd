//! The example machine with doubles, `examples/flow.machine`: what it holds, and
//! what comes of it.

use reference::line::{resumed, CONSOLE, MEMORY};
use reference::machine::Machine;
use reference::snapshot::read::read;
use reference::snapshot::save::save;
use reference::types::{Registers, Stop, NO_KEY};
use reference::words::{get, get_double};

const FILE: &[u8] = include_bytes!("../../examples/flow.machine");
const PULSES: [u32; 6] = [1200, 1315, 1287, 990, 1402, 1100];

/// Where the program has the single, the factor, the total, the limit, the table.
const SINGLE: u32 = 0xd0;
const FACTOR: u32 = 0xd8;
const TOTAL: u32 = 0xe0;
const TABLE: u32 = 0xf0;

fn machine() -> Machine {
    let (mut memory, mut console) = (vec![0xee; MEMORY], vec![0; CONSOLE]);
    let (answer, record) = read(FILE, &mut memory, &mut console);
    assert_eq!(answer, 0);
    Machine::buffered(memory, console, &record)
}

/// A fresh record but for the mode, no entries, an empty console.
#[test]
fn what_it_holds() {
    let machine = machine();
    let sp = MEMORY as u32;
    assert_eq!(machine.regs, Registers { sp, kbchar: NO_KEY, mode: true, ..Registers::default() });
    assert_eq!(FILE.len(), 28 + 112 + MEMORY);
    assert_eq!(get_double(&machine.memory, FACTOR), 0.0125f64.to_bits());
    for (at, pulses) in (TABLE..).step_by(4).zip(PULSES) {
        assert_eq!(get(&machine.memory, at, 4), pulses);
    }
    let mut again = vec![0; FILE.len()];
    let record = machine.record();
    assert_eq!(save(&record, &machine.memory, &[], &mut again), (0, FILE.len() as u64));
    assert_eq!(again, FILE);
}

/// 7,294 pulses of 0.0125 litres are 91.175; one interval ends above 80 litres.
#[test]
fn what_comes_of_it() {
    let mut machine = machine();
    let outcome = machine.run(&[], 1000);
    assert_eq!((outcome.answer, machine.regs.stop), (0, Stop::Halted));
    assert_eq!(&machine.console[..machine.regs.written as usize], b"91.1\n");
    let total = PULSES.iter().fold(0.0, |total, pulses| f64::from(*pulses) * 0.0125 + total);
    assert_eq!(get_double(&machine.memory, TOTAL), total.to_bits());
    assert_eq!(get(&machine.memory, SINGLE, 4), 91.175f32.to_bits());
    assert_eq!((machine.regs.a, machine.regs.b, machine.regs.c), (91.175f32.to_bits(), 1, 91));
}

/// In the old mode its first floating opcode, at the fourth step, is illegal.
#[test]
fn its_line_is_the_pages() {
    let line = resumed(FILE);
    let page = include_str!("../../examples/README.md");
    assert!(page.contains(&format!("| `{line}` |")), "{line}");
    let mut old = FILE.to_vec();
    old[120] = 0;
    assert_eq!(resumed(&old), "stop 2 steps 4 a 1200 b 0 c 0 sp 32768 pc 12");
}
