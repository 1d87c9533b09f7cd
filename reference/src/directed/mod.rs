//! Cases made by hand, one idea each: every open point's reading, every
//! opcode, every refusal. What must come of them stands in `tests/`.

pub mod addresses;
pub mod causes;
pub mod clock;
pub mod division;
pub mod double_moves;
pub mod double_runs;
pub mod double_traps;
pub mod double_values;
pub mod doubles;
pub mod every;
pub mod large;
pub mod marks;
pub mod opcodes;
pub mod refusals;
pub mod tables;
pub mod traps;
pub mod walks;

use crate::case::{Case, Runs};
use crate::types::Registers;
use crate::worked::worked_lines;

/// A case and the name the tests call it by.
pub type Named = (String, Case);

/// All cases made by hand, the worked lines first.
pub fn all() -> Vec<Named> {
    let worked = worked_lines().into_iter().map(|(name, runs)| (name.to_string(), runs.into()));
    worked
        .chain(named(traps::cases()))
        .chain(named(clock::cases()))
        .chain(named(marks::cases()))
        .chain(named(addresses::cases()))
        .chain(causes::cases())
        .chain(named(walks::cases()))
        .chain(named(opcodes::cases()))
        .chain(named(tables::cases()))
        .chain(with_doubles(tables::cases()))
        .chain(division::cases())
        .chain(doubles::cases())
        .chain(double_values::cases())
        .chain(double_moves::cases())
        .chain(double_runs::cases())
        .chain(double_traps::cases())
        .chain(every::cases())
        .chain(refusals::cases())
        .chain(named(large::cases()))
        .collect()
}

fn named(list: Vec<(&'static str, Runs)>) -> impl Iterator<Item = Named> {
    list.into_iter().map(|(name, runs)| (name.to_string(), runs.into()))
}

/// The same in the mode with doubles, which keeps the old opcodes.
fn with_doubles(list: Vec<(&'static str, Runs)>) -> impl Iterator<Item = Named> {
    list.into_iter().map(|(name, mut runs)| {
        let regs = &mut runs.record.regs;
        (regs.mode, regs.f, regs.g) = (true, 5, 6);
        (format!("{name}, with doubles"), runs.into())
    })
}

/// Where these cases have their program, handler and stacks.
pub const PROGRAM: u32 = 0x100;
pub const HANDLER: u32 = 0x800;

pub fn kernel() -> Registers {
    Registers {
        pc: PROGRAM,
        sp: 0xf00,
        ksp: 0xe00,
        usp: 0xd00,
        ivec: HANDLER,
        ..Registers::default()
    }
}

pub fn user() -> Registers {
    Registers { user: true, ..kernel() }
}

/// With interrupts on, so that a fault is delivered.
pub fn open(regs: Registers) -> Registers {
    Registers { iena: true, ..regs }
}

/// One page of memory, paging off, and a program.
pub fn bare(regs: Registers, program: &[u32]) -> Runs {
    Runs::new(4096, regs).words(PROGRAM, program)
}

/// Four pages: 0 the program, 1 the directory, 2 the table, 3 data, each at
/// its own address with all rights. Other pages are absent.
pub fn paged(regs: Registers, program: &[u32]) -> Runs {
    Runs::new(16_384, Registers { paging: true, pdir: 0x1000, ..regs })
        .words(PROGRAM, program)
        .words(0x1000, &[0x2007])
        .words(0x2000, &[0x0007, 0x1007, 0x2007, 0x3007])
}
