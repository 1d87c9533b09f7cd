//! The edges document 01 names: M, budgets, short files, and what an accepted
//! load or run gives.

use reference::case::Runs;
use reference::load::{executable, load};
use reference::machine::Machine;
use reference::types::{Record, Registers, Stop};
use reference::worked::op;

fn machine(memory: usize, regs: Registers) -> Machine {
    let record = Record { regs, ..Record::default() };
    Machine::buffered(vec![0; memory], Vec::new(), &record)
}

#[test]
fn memory_sizes() {
    let file = executable(0, 0, 4, &[0; 4]);
    for (length, answer) in
        [(0, 1), (4095, 1), (4096, 0), (8191, 1), (134_217_728, 0), (134_221_824, 1)]
    {
        assert_eq!(machine(length, Registers::default()).run(&[], 0).answer, answer);
        assert_eq!(load(&mut vec![0; length], &file).0, answer);
    }
}

#[test]
fn the_largest_memory_works() {
    let mut large = machine(134_217_728, Registers { b: 134_217_727, ..Registers::default() });
    large.memory[..4].copy_from_slice(&op("LBXB", 0).to_le_bytes());
    large.memory[134_217_727] = 99;
    large.run(&[], 1);
    assert_eq!(large.regs.b, 99);
}

#[test]
fn budgets() {
    let spin = |budget| {
        let mut machine = machine(4096, Registers::default());
        machine.memory[..4].copy_from_slice(&op("JMP", -4).to_le_bytes());
        let outcome = machine.run(&[], budget);
        (outcome.answer, outcome.steps, machine.regs.count)
    };
    assert_eq!(spin(0), (0, 0, 0));
    assert_eq!(spin(1), (0, 1, 1));
    assert_eq!(spin(1_000_000), (0, 1_000_000, 1_000_000));
    assert_eq!(spin(1_000_001), (6, 0, 0));
}

#[test]
fn short_files() {
    let file = executable(0, 0, 0, &[]);
    assert_eq!(load(&mut [0; 4096], &file).0, 9);
    assert_eq!(load(&mut [0; 4096], &file[..15]).0, 7);
}

#[test]
fn an_accepted_load() {
    let body: Vec<u8> = (1..=10).collect();
    let mut memory = vec![0x77; 4096];
    let (answer, record) = load(&mut memory, &executable(0xffff_ffff, 4, 9, &body));
    assert_eq!(answer, 0);
    assert_eq!(memory[..10], body);
    assert!(memory[10..].iter().all(|byte| *byte == 0));
    let regs = Registers { pc: 4, sp: 4096, kbchar: 0xffff_ffff, ..Registers::default() };
    assert_eq!(record, Record { regs, ..Record::default() });
    // A body as long as M, data start at its end, entry at the last word.
    let full = executable(0, 4092, 4096, &[1; 4096]);
    assert_eq!(load(&mut memory, &full).0, 0);
}

#[test]
fn a_stopped_machine_and_budget_zero_change_nothing() {
    for stop in [Stop::Halted, Stop::Masked, Stop::NoFrame] {
        let regs = Registers { stop, timeout: 3, iena: true, ..Registers::default() };
        let mut machine = machine(4096, regs);
        let given = machine.record();
        let outcome = machine.run(&[], 5);
        assert_eq!((outcome.answer, outcome.steps), (0, 0));
        assert_eq!(machine.record(), given);
    }
}

#[test]
fn the_step_count_may_pass_two_to_63_within_a_run() {
    let regs = Registers { count: (1 << 63) - 1, ..Registers::default() };
    let mut machine = machine(4096, regs);
    machine.memory[..8].fill(0x9b);
    assert_eq!(machine.run(&[], 2).steps, 2);
    assert_eq!(machine.regs.count, (1 << 63) + 1);
    assert_eq!(machine.run(&[], 2).answer, 2);
}

#[test]
fn a_list_of_single_steps_equals_one_run() {
    let program = [op("LI", 5), op("PSHA", 0), op("ADDI", 1), op("JMP", -12)];
    let regs = Registers { sp: 0x1000, ..Registers::default() };
    let case = Runs::new(4096, regs).words(0, &program);
    let whole = {
        let mut machine = Machine::buffered(case.memory.clone(), Vec::new(), &case.record);
        machine.run(&[], 40);
        machine
    };
    let mut single = Machine::buffered(case.memory, Vec::new(), &case.record);
    for _ in 0..40 {
        assert_eq!(single.run(&[], 1).steps, 1);
    }
    assert_eq!(single.record(), whole.record());
    assert!(single.memory == whole.memory);
}
