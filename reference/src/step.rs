//! One step. Document 01, "One step"; document 02, items 1 and 4, on the marks
//! and the cause.

use crate::machine::Machine;
use crate::mistake::Mistake;
use crate::opcodes::decode::{decode, Op};
use crate::types::{Access, Key, Registers, Stop, Trap};
use crate::words;

impl Machine {
    pub fn step(&mut self, keys: &[Key]) {
        let start = self.regs.clone();
        self.begin_step_walks();
        self.regs.count += 1;
        let due = self.clock(keys);
        if let Some(trap) = due {
            self.regs.waiting = false;
            self.coverage.causes.raised(trap);
            self.deliver(trap, self.regs.pc);
            self.misread_trap(trap);
        } else if !self.regs.waiting {
            self.instruction();
            self.misread_opening(&start);
        }
        self.misread_stop(&start);
        self.misread_floats(&start);
        self.misread_step_walks(&start, due.is_some());
        self.coverage.step(&start, &self.regs, &self.walks);
    }

    /// Fetch at pc; pc moves 4 on; execute. A faulting instruction leaves the
    /// registers as before the fetch, save vadr and cause.
    fn instruction(&mut self) {
        let before = self.regs.clone();
        let next = before.pc.wrapping_add(4);
        let word = match self.fetch() {
            Ok(word) => word,
            Err(trap) => {
                let return_pc = self.pick(Mistake::FetchFaultNextPc, next, before.pc);
                return self.fault(trap, return_pc);
            }
        };
        self.opcode = word as u8;
        self.regs.pc = next;
        let Err(trap) = self.execute(word) else {
            self.coverage.executed(self.opcode, &before, false);
            self.misread_reset(Mistake::ForgetsCause(self.opcode));
            return;
        };
        self.coverage.executed(self.opcode, &before, true);
        let (vadr, cause) = (self.regs.vadr, self.regs.cause);
        let sp = self.pick(Mistake::FaultedPushKeepsSp, self.regs.sp, before.sp);
        let own_pc = self.misread_return(trap, word);
        self.regs = Registers { vadr, cause, sp, ..before };
        self.misread_faulted(trap);
        self.fault(trap, if own_pc { before.pc } else { next });
        if self.regs.stop == Stop::NoFrame {
            self.regs.pc = self.pick(Mistake::StopPcMoved, next, self.regs.pc);
        }
    }

    fn fetch(&mut self) -> Result<u32, Trap> {
        let fetched = self.reach(self.regs.pc, Access::Fetch, 4);
        let memory_trap = self.pick(Mistake::FetchMemoryAsPage, Trap::Fipage, Trap::Fmem);
        let at = fetched.map_err(|trap| if trap == Trap::Fmem { memory_trap } else { trap })?;
        Ok(words::get(&self.memory, at, 4))
    }

    /// Planted mistakes only: whether this fault would store its own address.
    fn misread_return(&self, trap: Trap, word: u32) -> bool {
        let block = matches!(decode(word as u8), Some(Op::Block(_)));
        let unexecuted = matches!(trap, Trap::Finst | Trap::Fpriv);
        (block && self.makes(Mistake::BlockFaultOwnPc))
            || (unexecuted && self.makes(Mistake::IllegalOwnPc))
            || self.makes(Mistake::FaultOwnPc(self.opcode))
    }

    /// Planted mistake only: a mark delivered in the step that sets iena.
    fn misread_opening(&mut self, start: &Registers) {
        let opened = !start.iena && self.regs.iena;
        if opened && self.makes(Mistake::StiDeliversAtOnce) {
            if let Some(trap) = self.due() {
                self.deliver(trap, self.regs.pc);
            }
        }
    }

    /// Planted mistakes only: other readings of what a stop leaves.
    fn misread_stop(&mut self, start: &Registers) {
        if !matches!(self.regs.stop, Stop::Masked | Stop::NoFrame) {
            return;
        }
        if self.makes(Mistake::ClockUndoneOnStop) {
            self.regs.kbchar = start.kbchar;
            self.regs.keys = start.keys;
            self.regs.timer = start.timer;
        }
        if self.makes(Mistake::WaitingKeptOnStop) {
            self.regs.waiting = start.waiting;
        }
        if self.makes(Mistake::StopForgetsVadr) && self.regs.stop == Stop::Masked {
            self.regs.vadr = start.vadr;
        }
        // A fetch asks for pc.
        let fetch = self.regs.vadr == start.pc && self.makes(Mistake::FetchStopForgetsCause);
        if fetch || self.makes(Mistake::StopForgetsCause(self.regs.stop, self.regs.cause)) {
            self.regs.cause = start.cause;
        }
        self.misread_stopped_marks(start);
    }

    /// Planted mistakes only: marks that a stop would not keep.
    fn misread_stopped_marks(&mut self, start: &Registers) {
        if self.makes(Mistake::MarksUndoneOnStop) {
            self.regs.key_pending = start.key_pending;
            self.regs.timer_pending = start.timer_pending;
        }
        match (self.regs.stop, self.due()) {
            (Stop::Masked, _) if self.makes(Mistake::MaskedStopClearsMarks) => {
                self.regs.key_pending = false;
                self.regs.timer_pending = false;
            }
            (Stop::NoFrame, Some(trap)) if self.makes(Mistake::StopClearsMark) => {
                self.clear_mark(trap);
            }
            _ => {}
        }
    }
}
