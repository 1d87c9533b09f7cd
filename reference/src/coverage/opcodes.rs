//! How opcodes ended, by item 7's mode, kernel or user mode and paging.

use super::{Coverage, Due, MODES};
use crate::opcodes::decode::decode_in;
use crate::opcodes::kinds::can_fault_in_kernel;
use crate::opcodes::sets::{is_floating, is_legal_in, is_privileged, name_of};
use std::fmt::Arguments;

/// Item 7's modes.
const TABLES: [&str; 2] = ["old mode", "doubles"];
const PAGING: [&str; 2] = ["paging off", "paging on"];
const ENDS: [&str; 2] = ["completed", "faulted"];

impl Coverage {
    /// How often an opcode was executed in a mode.
    pub fn executions(&self, code: u8, mode: bool) -> u64 {
        self.ended_in(code, mode, false) + self.ended_in(code, mode, true)
    }

    /// How often an opcode ended so in a mode.
    pub fn ended_in(&self, code: u8, mode: bool, faulted: bool) -> u64 {
        let settings = self.opcodes[usize::from(mode)][usize::from(code)].as_flattened();
        settings.iter().map(|ends| ends[usize::from(faulted)]).sum()
    }

    /// How often it did in both.
    pub fn ended(&self, code: u8, faulted: bool) -> u64 {
        self.ended_in(code, false, faulted) + self.ended_in(code, true, faulted)
    }

    /// How an opcode ended, at all and by setting.
    pub(super) fn each_end(&self, code: u8, visit: &mut impl FnMut(Arguments, u64, Due)) {
        let name = name_of(code);
        for (at, end) in ENDS.iter().enumerate() {
            let comes =
                |mode: bool| [false, true].iter().any(|user| comes(code, mode, *user, at == 1));
            let due = |comes: bool| if comes { Due::Always } else { Due::Never };
            if !is_floating(code) {
                let due = due(comes(false) || comes(true));
                visit(format_args!("{code:02x} {name} {end}"), self.ended(code, at == 1), due);
            }
            for (mode, table) in [false, true].into_iter().zip(TABLES) {
                if is_floating(code) {
                    let (count, due) = (self.ended_in(code, mode, at == 1), due(comes(mode)));
                    visit(format_args!("{code:02x} {name} {end}, {table}"), count, due);
                }
                self.each_setting(code, mode, at, visit);
            }
        }
    }

    fn each_setting(
        &self,
        code: u8,
        mode: bool,
        end: usize,
        visit: &mut impl FnMut(Arguments, u64, Due),
    ) {
        let (name, table) = (name_of(code), TABLES[usize::from(mode)]);
        let counts = self.opcodes[usize::from(mode)][usize::from(code)];
        for (by, privilege) in MODES.iter().enumerate() {
            let due = if comes(code, mode, by == 1, end == 1) { Due::InBulk } else { Due::Never };
            for (on, paging) in PAGING.iter().enumerate() {
                let (count, end) = (counts[by][on][end], ENDS[end]);
                let setting = format_args!("{table}, {privilege}, {paging}, {end}");
                visit(format_args!("{code:02x} {name}, {setting}"), count, due);
            }
        }
    }
}

/// Whether an opcode can complete, or fault, in a mode. TRAP never completes.
fn comes(code: u8, mode: bool, user: bool, faulted: bool) -> bool {
    let closed = user && is_privileged(code);
    if faulted {
        closed || decode_in(code, mode).is_none_or(can_fault_in_kernel)
    } else {
        is_legal_in(code, mode) && name_of(code) != "TRAP" && !closed
    }
}
