//! P1 to P12 of document 01, and the run program's worked line, on both
//! machines.

use reference::case::Runs;
use reference::line::line;
use reference::load::executable;
use reference::machine::Machine;
use reference::types::{Registers, Stop};
use reference::words::get;
use reference::worked::{marks_apart, op, worked_lines};

fn case(lines: Vec<(&str, Runs)>, name: &str) -> Runs {
    let found = lines.into_iter().find(|line| line.0 == name);
    found.unwrap_or_else(|| panic!("no {name}")).1
}

/// Both machines after all of a worked line's runs but the last `left`.
fn after(name: &str, left: usize) -> [Machine; 2] {
    ended(case(worked_lines(), name), left)
}

fn ended(case: Runs, left: usize) -> [Machine; 2] {
    let make = [Machine::buffered, Machine::table_reader];
    make.map(|make| {
        let mut machine = make(case.memory.clone(), case.console.clone(), &case.record);
        for run in &case.runs[..case.runs.len() - left] {
            let outcome = machine.run(&run.keys, run.budget);
            assert_eq!(outcome.answer, 0);
        }
        machine
    })
}

fn check(name: &str, holds: impl Fn(&Registers) -> bool) {
    for machine in after(name, 0) {
        assert!(holds(&machine.regs), "{name}: {:?}", machine.regs);
    }
}

#[test]
fn p1_p2_immediates() {
    check("P1", |regs| regs.a == 9_600_000);
    check("P2", |regs| regs.a == 0xffff_ffff);
}

#[test]
fn p3_p4_arithmetic() {
    check("P3 DIV", |regs| regs.a == 0xffff_fffd);
    check("P3 MOD", |regs| regs.a == 0xffff_ffff);
    check("P3 DVU", |regs| regs.a == 2_147_483_644);
    check("P4 SHRI 31", |regs| regs.a == 0xffff_ffff);
    check("P4 SRUI 31", |regs| regs.a == 1);
    check("P4 SHRI 32", |regs| regs.a == 0x8000_0000);
}

#[test]
fn p5_p6_call_and_return() {
    for machine in after("P5 P6", 1) {
        assert_eq!(get(&machine.memory, 0xff8, 4), 0x18);
        assert_eq!((machine.regs.sp, machine.regs.pc), (0xff8, 0));
    }
    check("P5 P6", |regs| (regs.sp, regs.pc) == (0x1000, 0x18));
}

#[test]
fn p7_equal_is_at_least() {
    check("P7 GE", |regs| regs.a == 1);
    check("P7 BGE", |regs| regs.pc == 0x24);
}

#[test]
fn p8_low_bits_drop() {
    for machine in after("P8", 0) {
        assert_eq!(machine.memory[0xff..0x105], [0, 0x44, 0x33, 0x22, 0x11, 0]);
    }
}

#[test]
fn p9_privileged_in_user_mode() {
    for machine in after("P9", 0) {
        assert_eq!(get(&machine.memory, 0x7f0, 4), 19);
        assert_eq!(get(&machine.memory, 0x7f8, 4), 4);
        let regs = &machine.regs;
        assert_eq!((regs.sp, regs.usp, regs.pc), (0x7f0, 0x1000, 0x100));
        assert!(!regs.user && !regs.iena);
    }
}

#[test]
fn p10_three_steps() {
    // The fourth step is HALT, word 0 after MCPY.
    check("P10", |regs| regs.count == 4 && regs.stop == Stop::Halted);
    check("P10", |regs| (regs.a, regs.b, regs.c) == (0x202, 0x102, 0));
    for machine in after("P10", 0) {
        assert_eq!(machine.memory[0x200..0x203], [7, 8, 0]);
    }
}

#[test]
fn p11_p12_walks() {
    for machine in after("P11 read", 0) {
        assert_eq!(machine.regs.a, 0x1234_5678);
        assert_eq!(get(&machine.memory, 0x1000, 4), 0x2027);
        assert_eq!(get(&machine.memory, 0x2000, 4), 0x3027);
    }
    for machine in after("P11 write", 0) {
        assert_eq!(get(&machine.memory, 0x1000, 4), 0x2027);
        assert_eq!(get(&machine.memory, 0x2000, 4), 0x3067);
        assert_eq!(get(&machine.memory, 0x3010, 4), 0x10);
    }
    for machine in after("P12", 0) {
        // FMEM with iena = 0 is a stop with 2.
        assert_eq!(machine.regs.stop, Stop::Masked);
        assert_eq!(machine.regs.vadr, 0x10);
        assert_eq!(get(&machine.memory, 0x2000, 4), 0x4027);
    }
}

/// The directory word and the table word of the access, and those of the fetch.
fn words_apart(name: &str) -> [[u32; 4]; 2] {
    ended(case(marks_apart(), name), 0)
        .map(|machine| [0x1000, 0x2000, 0x1004, 0].map(|at| get(&machine.memory, at, 4)))
}

#[test]
fn p11_p12_marks_of_the_access_itself() {
    assert_eq!(words_apart("no access"), [[0x2007, 0x3007, 0x27, 0x27]; 2]);
    assert_eq!(words_apart("P11 read"), [[0x2027, 0x3027, 0x27, 0x27]; 2]);
    assert_eq!(words_apart("P11 write"), [[0x2027, 0x3067, 0x27, 0x27]; 2]);
    assert_eq!(words_apart("P12"), [[0x2027, 0x4027, 0x27, 0x27]; 2]);
    for machine in ended(case(marks_apart(), "P11 read"), 0) {
        assert_eq!(machine.regs.a, 0x1234_5678);
    }
}

#[test]
fn the_run_programs_line() {
    let words = [op("LI", 0), op("LHI", 0x92_7c00), op("HALT", 0)];
    let body: Vec<u8> = words.iter().flat_map(|word| word.to_le_bytes()).collect();
    let text = "stop 1 steps 3 a 9600000 b 0 c 0 sp 32768 pc 12";
    assert_eq!(line(&executable(0, 0, 12, &body)), text);
    assert_eq!(line(&executable(0, 0, 12, &body)[..15]), "refused 7");
    let spin = op("JMP", -4).to_le_bytes();
    let text = "stop 0 steps 100000 a 0 b 0 c 0 sp 32768 pc 0";
    assert_eq!(line(&executable(9, 0, 4, &spin)), text);
    assert_eq!(line(&executable(0, 0, 4, &vec![0; 32_769])), "refused 9");
}
