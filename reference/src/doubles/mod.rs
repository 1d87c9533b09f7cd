//! Planted mistakes about doubles, and nothing else: the rules of document 02's
//! item 7 are in `double.rs`, `exec/floats.rs` and `access.rs`. Here those about
//! moves and about what keeps f, g and the mode.

mod arithmetic;
mod compared;
pub mod narrowing;

use crate::double::{is_nan, NAN};
use crate::machine::Machine;
use crate::mistake::Mistake;
use crate::opcodes::floats::{decode_float, Float, FloatReg};
use crate::types::{Access, Registers, Stop, Trap};

/// The bit that makes a NaN quiet.
const QUIET: u64 = 1 << 51;

/// Moves.
impl Machine {
    /// What a double becomes that is moved.
    pub fn moved(&self, x: u64) -> u64 {
        match self.mistake {
            Some(Mistake::MoveCanonical(code)) if code == self.opcode && is_nan(x) => NAN,
            Some(Mistake::MoveQuiet(code)) if code == self.opcode && is_nan(x) => x | QUIET,
            _ => x,
        }
    }

    /// Where an access is made: low bits drop to its size.
    pub fn misplaced(&self, physical: u32, access: Access, size: u32) -> u32 {
        let last = self.memory_size() - size;
        match (self.mistake, size) {
            (Some(Mistake::DoubleDropsTwoBits), 8) => (physical & !3).min(last),
            (Some(Mistake::DoubleDropsNoBits), 8) => physical.min(last),
            (Some(Mistake::SingleDropsThreeBits), 4)
                if access != Access::Fetch && decode_float(self.opcode).is_some() =>
            {
                physical & !7
            }
            _ => physical & !(size - 1),
        }
    }

    /// The halves of eight bytes in memory.
    pub fn misordered(&self, x: u64) -> u64 {
        self.pick(Mistake::HighHalfFirst, x.rotate_left(32), x)
    }

    pub fn miswidened(&self, single: u32, rule: u64) -> u64 {
        let sign = u64::from(single >> 31) << 63;
        let payload = u64::from(single & 0x7f_ffff) << 29;
        match self.mistake {
            Some(Mistake::WidenNanKept) if rule == NAN => sign | NAN | payload,
            Some(Mistake::WidenNanSign) if rule == NAN => sign | NAN,
            Some(Mistake::WidenFlushes) if f32::from_bits(single).is_subnormal() => sign,
            _ => rule,
        }
    }
}

/// What else keeps f, g and the mode.
impl Machine {
    fn clear_floats(&mut self) {
        (self.regs.f, self.regs.g) = (0, 0);
    }

    /// f, g and the mode after a delivery.
    pub fn misread_delivery(&mut self, trap: Trap) {
        match self.mistake {
            Some(Mistake::InterruptClearsFloats) if trap.is_interrupt() => self.clear_floats(),
            Some(Mistake::FaultClearsFloats) if !trap.is_interrupt() => self.clear_floats(),
            Some(Mistake::DeliveryEndsMode) => self.regs.mode = false,
            _ => {}
        }
    }

    /// What a faulting instruction leaves in a and in f or g.
    pub fn misread_faulted(&mut self, trap: Trap) {
        let Some(float) = decode_float(self.opcode).filter(|_| self.regs.mode) else { return };
        match (self.mistake, float) {
            (Some(Mistake::FarithChangesA), Float::Cdi | Float::Cdu) if trap == Trap::Farith => {
                self.regs.a = 0x8000_0000;
            }
            (Some(Mistake::FaultedLoadClears), Float::Load(reg, ..) | Float::Pop(reg)) => match reg
            {
                FloatReg::F => self.regs.f = 0,
                FloatReg::G => self.regs.g = 0,
            },
            _ => {}
        }
    }

    /// f and g after a step.
    pub fn misread_floats(&mut self, start: &Registers) {
        let stopped = self.regs.stop != Stop::Running;
        let returned = self.opcode == 0x98 && !start.iena && self.regs.iena;
        let clears = match self.mistake {
            Some(Mistake::StopClearsFloats) => stopped,
            Some(Mistake::RtiClearsFloats) => returned,
            Some(Mistake::OldModeClearsFloats) => !self.regs.mode,
            _ => false,
        };
        if clears {
            self.clear_floats();
        }
    }

    /// f and g at the start of a run.
    pub fn misread_start(&mut self) {
        if self.makes(Mistake::FloatsLastARun) {
            self.clear_floats();
        }
    }
}
