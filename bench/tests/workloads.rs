//! The workloads do what their names say.

use bench::opcode::*;
use bench::plain::Machine;
use bench::workload::{all, case, growths, Workload, HANDLER};
use std::collections::HashMap;

/// The opcodes of `steps` steps, with how often each was made, the traps, and how often the page buffer was emptied.
struct Seen {
    machine: Machine,
    opcodes: HashMap<u32, usize>,
    traps: usize,
    emptied: usize,
}

fn seen(work: &Workload, steps: usize) -> Seen {
    let mut machine = case(work, 0, 0).machine;
    let (mut opcodes, mut traps, mut emptied) = (HashMap::new(), 0, 0);
    for _ in 0..steps {
        let (held, pc) = (machine.held, machine.pc as usize);
        *opcodes.entry(machine.memory[pc] as u32).or_default() += 1;
        assert_eq!(machine.run(&[], 1).steps, 1, "{} stops", work.name);
        traps += usize::from(machine.pc == HANDLER);
        emptied += usize::from(machine.held < held);
    }
    Seen { machine, opcodes, traps, emptied }
}

fn named(name: &str) -> Workload {
    all().into_iter().find(|work| work.name == name).expect("a workload of this name")
}

#[test]
fn none_stops_and_paging_stays() {
    for work in all() {
        let seen = seen(&work, 20_000);
        assert_eq!(seen.machine.paging, work.paged, "{}", work.name);
    }
}

#[test]
fn signed_divisions_are_sixteen_of_37_steps() {
    let seen = seen(&named("signed division"), 10 * 37);
    for code in [DIV, DIVI, MOD, MODI] {
        assert_eq!(seen.opcodes[&code], 10 * 4, "{code:#x}");
    }
    assert_eq!(seen.traps, 0);
}

#[test]
fn twenty_pages_and_the_code_and_the_stack_are_held() {
    let seen = seen(&named("loads, stores, calls on 20 pages"), 10_000);
    assert_eq!((seen.machine.held, seen.emptied), (22, 0));
}

#[test]
fn every_family_is_made() {
    let families: [&[u32]; 13] = [
        &[ADD, ADDI, ADDL, SUB, SUBL, MUL, MULI],
        &[DIV, DIVI, MOD, MODI],
        &[DVUI, MDUI],
        &[ANDI, ORL, XOR, SHLI, SHRI, SRUI],
        &[EQ, NE, LT, LTU, GE, GEU],
        &[BZ, BNZ, BE, BNE, BLT, BLTU, BGE, BGEU],
        &[JMP, JMPI, JSR, JSRA, LEV],
        &[LL, LLS, LLH, LLC, LLB, LG, LX, LXH, LBL, LBG, LBX, LBXB, LCL],
        &[SL, SLH, SLB, SG, SX, SXH, SXB],
        &[LI, LHI, LBI, LBHI, LBA, LCA, LEA, LEAG, ENT, CYC, NOP],
        &[PSHA, PSHB, PSHC, PSHI, POPA, POPB, POPC],
        &[MCPY, MCMP, MCHR, MSET],
        &[TRAP, RTI, MSIZ, LUSP],
    ];
    for name in ["all families", "all families, paged"] {
        let seen = seen(&named(name), 10_000);
        for code in families.concat() {
            assert!(seen.opcodes.contains_key(&code), "{name}: no {code:#x}");
        }
        assert_eq!(seen.machine.held, if seen.machine.paging { 8 } else { 0 });
    }
}

#[test]
fn one_step_in_three_is_of_doubles() {
    let floating = [LLD, LBLD, LBAD, SLD, SLF, ADDF, MULF, DIVF, BLTF, CID, CUD, CDI];
    for name in ["doubles", "doubles, paged"] {
        let seen = seen(&named(name), 200_000);
        let made: usize = floating.iter().map(|code| seen.opcodes[code]).sum();
        assert!((64_000..70_000).contains(&made), "{name}: {made}");
        assert_eq!(seen.traps, 0);
        // the total starts again, and no number is lost
        assert!(f64::from_bits(seen.machine.f).is_normal() && seen.opcodes[&CDI] > 2, "{name}");
    }
}

#[test]
fn doubles_stand_alone() {
    let floating = [LBLD, SLD, SLF, ADDF, MULF, CUD];
    for name in ["doubles, each alone", "doubles, each alone, paged"] {
        let work = named(name);
        let is_floating: Vec<bool> =
            work.program.iter().map(|word| floating.contains(&(word & 0xff))).collect();
        assert!(is_floating.windows(2).all(|pair| pair != [true, true]), "{name}");
        let seen = seen(&work, 17 * 1000);
        let made: usize = floating.iter().map(|code| seen.opcodes[code]).sum();
        assert_eq!((made, seen.traps), (8 * 1000, 0), "{name}");
        assert!(f64::from_bits(seen.machine.f).is_normal(), "{name}");
    }
}

#[test]
fn the_timer_traps_every_fifty_steps() {
    assert_eq!(seen(&named("timer trap every 50 steps"), 50_000).traps, 1000);
}

#[test]
fn sixteen_kib_are_copied() {
    let round = 16_384 + 1 + 5;
    let seen = seen(&named("MCPY of 16 KiB"), round);
    assert_eq!((seen.opcodes[&MCPY], seen.machine.pc), (16_385, 0));
}

#[test]
fn seventy_pages_empty_the_buffer_in_every_round() {
    let round = 70 * 3 + 1;
    let emptied = seen(&named("70 pages in rotation"), 100 * round).emptied;
    assert!((100..=120).contains(&emptied), "{emptied}");
}

#[test]
fn growths_differ_in_what_they_say() {
    let [memory, entries] =
        growths().map(|growth| [growth.few, growth.many].map(|work| seen(&work, 1000).machine));
    assert_eq!(memory.map(|machine| machine.memory.len()), [4096, 1 << 21]);
    assert_eq!(entries.map(|machine| machine.held), [2, 60]);
}
