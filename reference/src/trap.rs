//! Traps: a fault with iena = 0 stops; delivery stores the frame and enters
//! the kernel. Document 01, "Traps"; document 02, items 1 and 4, on the marks
//! and the cause.

use crate::coverage::Storer;
use crate::machine::Machine;
use crate::mistake::Mistake;
use crate::types::{Access, Stop, Trap};

/// Added to the code of a trap from user mode.
pub const USER_MARK: u32 = 16;

impl Machine {
    /// A fault or TRAP. The registers are those of before the fetch, so a stop
    /// leaves them so.
    pub fn fault(&mut self, trap: Trap, return_pc: u32) {
        self.coverage.causes.raised(trap);
        self.misread_fault_walks();
        if self.regs.iena {
            self.deliver(trap, return_pc);
        } else {
            self.regs.stop = Stop::Masked;
        }
        self.misread_trap(trap);
    }

    /// Both slots are translated for kernel writing before either is stored.
    pub fn deliver(&mut self, trap: Trap, return_pc: u32) {
        let user = self.regs.user;
        let switches = user || self.makes(Mistake::KernelSetsUsp);
        let top = if switches { self.regs.ksp } else { self.regs.sp };
        let (pc_slot, code_slot) = (top.wrapping_sub(8), top.wrapping_sub(16));
        if self.makes(Mistake::SlotsCodeFirst) && self.frame_slot(1, code_slot).is_none() {
            return;
        }
        let Some(pc_at) = self.frame_slot(0, pc_slot) else { return };
        if self.makes(Mistake::FrameSlotBySlot) {
            self.store_slot(pc_at, return_pc);
        }
        let Some(code_at) = self.frame_slot(1, code_slot) else { return };
        self.store_slot(pc_at, return_pc);
        self.store_slot(code_at, self.code(trap));
        self.misread_code_slot(code_at);
        self.coverage.trap(trap, user);
        if self.regs.mode && self.regs.f | self.regs.g != 0 {
            self.coverage.floats.delivered(trap.is_interrupt());
        }
        if switches {
            self.regs.usp = self.pick(Mistake::UspKept, self.regs.usp, self.regs.sp);
            self.regs.user = false;
        }
        self.regs.sp = code_slot;
        self.regs.iena = self.makes(Mistake::IenaKept);
        self.regs.pc = self.regs.ivec;
        self.clear_mark(trap);
        self.misread_delivery(trap);
    }

    /// An interrupt's delivery clears its own mark; a fault has none.
    pub fn clear_mark(&mut self, trap: Trap) {
        if self.makes(Mistake::DeliveryKeepsMark) {
            return;
        }
        let both = trap.is_interrupt() && self.makes(Mistake::DeliveryClearsBoth);
        self.regs.key_pending &= trap != Trap::Fkeybd && !both;
        self.regs.timer_pending &= trap != Trap::Ftimer && !both;
    }

    /// A slot's physical address; a refusal stops and sets neither vadr nor the
    /// cause. `nth` is 0 for the pc's slot, 1 for the code's.
    fn frame_slot(&mut self, nth: u8, slot: u32) -> Option<u32> {
        let user = self.regs.user && self.makes(Mistake::SlotsByMode);
        let before = self.walks.in_step;
        let answer = self.translate(slot, Access::Write, user);
        self.count_slot(nth, self.walks.in_step - before);
        if let Err(fault) = answer {
            self.regs.stop = Stop::NoFrame;
            self.regs.vadr = self.pick(Mistake::SlotSetsVadr, slot, self.regs.vadr);
            let kept = self.regs.cause;
            self.regs.cause = self.pick(Mistake::SlotSetsCause(nth), fault.cause, kept);
        }
        answer.ok().map(|physical| physical & !3)
    }

    /// Four bytes a slot; the other four keep.
    fn store_slot(&mut self, physical: u32, value: u32) {
        self.store(physical, 4, value.into(), Storer::Frame);
        if self.makes(Mistake::SlotsEightBytes) {
            self.store(physical + 4, 4, 0, Storer::Frame);
        }
    }

    fn code(&self, trap: Trap) -> u32 {
        let unmarked = trap.is_interrupt() && self.makes(Mistake::InterruptsUnmarked);
        let wrong = self.makes(Mistake::TrapCode(trap as u32, self.regs.user));
        trap as u32 + u32::from(wrong) + if self.regs.user && !unmarked { USER_MARK } else { 0 }
    }
}
