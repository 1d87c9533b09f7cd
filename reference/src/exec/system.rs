//! The sixteen privileged opcodes.

use crate::coverage::Emptied;
use crate::machine::Machine;
use crate::mistake::Mistake;
use crate::opcodes::decode::System;
use crate::trap::USER_MARK;
use crate::types::{Cause, Stop, Trap, NO_KEY, PAGE};

impl Machine {
    pub fn system(&mut self, system: System, imm: u32) -> Result<(), Trap> {
        match system {
            System::Rti => return self.rti(),
            System::Pdir => return self.set_pdir(),
            System::Spag => self.set_paging(),
            System::Halt => self.halt(),
            System::Cli => {
                self.regs.a = u32::from(self.regs.iena);
                self.regs.iena = false;
            }
            System::Sti => self.regs.iena = true,
            System::Idle => {
                self.regs.waiting = self.pick(Mistake::IdleAlwaysWaits, true, self.regs.iena);
            }
            System::Bin => {
                self.regs.a = self.regs.kbchar;
                self.regs.kbchar = self.pick(Mistake::BinKeepsKey, self.regs.kbchar, NO_KEY);
                self.regs.key_pending &= !self.makes(Mistake::BinClearsMark);
            }
            System::Bout => self.bout(),
            System::Ssp => self.regs.ksp = self.stack(self.regs.a),
            System::Susp => self.regs.usp = self.stack(self.regs.a),
            System::Lusp => self.regs.a = self.regs.usp,
            System::Ivec => self.regs.ivec = self.target(self.regs.a),
            System::Time => self.time(imm),
            System::Lvad => {
                let cause = self.regs.cause as u32;
                self.regs.a = self.pick(Mistake::LvadGivesCause, cause, self.regs.vadr);
                self.regs.vadr = self.pick(Mistake::LvadResets, 0, self.regs.vadr);
            }
            System::Msiz => {
                let pages = self.memory_size() / PAGE;
                self.regs.a = self.pick(Mistake::MsizInPages, pages, self.memory_size());
            }
        }
        Ok(())
    }

    fn halt(&mut self) {
        self.regs.stop = Stop::Halted;
        self.regs.pc = self.pick(Mistake::HaltPcStays, self.regs.pc.wrapping_sub(4), self.regs.pc);
    }

    /// b's low byte appended, a = 1; console full, a = 0xFFFFFFFF.
    fn bout(&mut self) {
        let byte = self.regs.b as u8;
        if self.makes(Mistake::BoutWholeB) && self.regs.b > 255 {
            return;
        }
        let first = self.makes(Mistake::BoutAtStart);
        let written = self.regs.written as usize;
        if written < self.console.len() {
            self.console[if first { 0 } else { written }] = byte;
            self.regs.written += 1;
            self.regs.a = 1;
        } else {
            self.regs.a = self.pick(Mistake::FullConsoleOne, 1, u32::MAX);
        }
    }

    /// TIME with imm not 0 does nothing; the timer itself is left.
    fn time(&mut self, imm: u32) {
        let imm = self.pick(Mistake::TimeLowByte, imm & 0xff, imm);
        if imm == 0 || self.makes(Mistake::TimeIgnoresImm) {
            self.regs.timeout = self.regs.a;
            self.regs.timer = self.pick(Mistake::TimeRestartsTimer, 0, self.regs.timer);
            self.regs.timer_pending &= !self.makes(Mistake::TimeClearsMark);
        }
    }

    /// a not below M is FMEM with vadr = a, and "PDIR's own fault counts as
    /// address beyond memory"; low twelve bits drop.
    fn set_pdir(&mut self) -> Result<(), Trap> {
        let unaligned = self.regs.a % PAGE != 0 && self.makes(Mistake::PdirAsksAlignment);
        if self.regs.a >= self.memory_size() || unaligned {
            self.coverage.causes.refused_pdir();
            self.refuse(self.regs.a, self.misnamed_pdir(Cause::AddressBeyond));
            self.misread_unwalked(Mistake::PdirFaultCounted);
            if self.makes(Mistake::PdirFaultEmpties) {
                self.empty(Emptied::Pdir);
            }
            return Err(Trap::Fmem);
        }
        let old = self.regs.pdir;
        self.regs.pdir = self.pick(Mistake::PdirNextRun, old, self.regs.a & !(PAGE - 1));
        self.empty_after(Emptied::Pdir, old == self.regs.pdir);
        Ok(())
    }

    fn set_paging(&mut self) {
        let old = self.regs.paging;
        let asked = match self.mistake {
            Some(Mistake::SpagLowBit) => self.regs.a & 1,
            Some(Mistake::SpagLowByte) => self.regs.a & 0xff,
            _ => self.regs.a,
        };
        self.regs.paging = asked != 0;
        self.empty_after(Emptied::Spag, old == self.regs.paging);
    }

    /// PDIR and SPAG empty the buffer, also with the value already set.
    fn empty_after(&mut self, why: Emptied, same: bool) {
        self.walks.emptied = true;
        let keeps = same && self.makes(Mistake::SameValueKeepsBuffer);
        if !keeps && !self.makes(Mistake::NeverEmptied) {
            self.empty(why);
        }
    }

    /// Code at sp, pc at sp+8; the mark of value 16 leads to user mode.
    fn rti(&mut self) -> Result<(), Trap> {
        let sp = self.regs.sp;
        if self.makes(Mistake::RtiPcFirst) {
            self.read(sp.wrapping_add(8), 4)?;
        }
        let code = self.read(sp, 4)?;
        let target = self.read(sp.wrapping_add(8), 4)?;
        self.set_pc(target);
        self.regs.sp = sp.wrapping_add(16);
        self.regs.iena = true;
        if self.makes(Mistake::RtiClearsMarks) {
            self.regs.key_pending = false;
            self.regs.timer_pending = false;
        }
        if self.pick(Mistake::RtiExactMark, code == USER_MARK, code & USER_MARK != 0) {
            self.regs.ksp = self.pick(Mistake::RtiOldSpToKsp, sp, self.regs.sp);
            self.regs.sp = self.regs.usp;
            self.regs.user = true;
        }
        Ok(())
    }
}
