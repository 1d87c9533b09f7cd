//! Arithmetic: a with register b, imm, or the word at sp+imm.

use crate::machine::Machine;
use crate::mistake::Mistake;
use crate::opcodes::decode::{Arith, Source};
use crate::types::Trap;
use crate::words::field;

impl Machine {
    /// The operand's access comes before the arithmetic fault.
    pub fn arithmetic(&mut self, arith: Arith, source: Source, word: u32) -> Result<(), Trap> {
        let imm = self.imm(word);
        let stack = self.regs.sp.wrapping_add(imm);
        let right = match source {
            Source::Register => self.regs.b,
            Source::Immediate => self.immediate_operand(arith, word),
            Source::Stack if arith == Arith::Sub && self.makes(Mistake::SublTakesAddress) => stack,
            Source::Stack => self.read(stack, 4)?,
        };
        self.regs.a = self.compute(arith, self.regs.a, right)?;
        Ok(())
    }

    /// imm is signed, also where 000 writes (uint).
    fn immediate_operand(&self, arith: Arith, word: u32) -> u32 {
        use Arith::{And, Dvu, Mdu, Or, Xor};
        if matches!(arith, Dvu | Mdu | And | Or | Xor) && self.makes(Mistake::ImmediateUnsigned) {
            return field(word);
        }
        self.imm(word)
    }

    fn compute(&self, arith: Arith, left: u32, right: u32) -> Result<u32, Trap> {
        Ok(match arith {
            Arith::Add => left.wrapping_add(right),
            Arith::Sub => left.wrapping_sub(right),
            Arith::Mul => left.wrapping_mul(right),
            Arith::Div | Arith::Mod => self.divide_signed(arith, left as i32, right as i32)?,
            Arith::Dvu => left.checked_div(right).ok_or(Trap::Farith)?,
            Arith::Mdu => left.checked_rem(right).ok_or(Trap::Farith)?,
            Arith::And => left & right,
            Arith::Or => left | right,
            Arith::Xor => left ^ right,
            Arith::Shl | Arith::Shr | Arith::Sru => self.shift(arith, left, right),
        })
    }

    /// The quotient is cut toward zero, the remainder takes the sign of the
    /// dividend; -2^31 by -1 gives 0x80000000 and 0.
    fn divide_signed(&self, arith: Arith, left: i32, right: i32) -> Result<u32, Trap> {
        if right == 0 {
            return Err(Trap::Farith);
        }
        if left == i32::MIN && right == -1 {
            return if self.makes(Mistake::OverflowFaults) {
                Err(Trap::Farith)
            } else {
                Ok(if arith == Arith::Div { 0x8000_0000 } else { 0 })
            };
        }
        let (mut quotient, mut remainder) = (left / right, left % right);
        if self.makes(Mistake::QuotientFloors) && remainder != 0 && (remainder < 0) != (right < 0) {
            quotient -= 1;
            remainder += right;
        }
        Ok(if arith == Arith::Div { quotient as u32 } else { remainder as u32 })
    }

    /// Shift counts are taken modulo 32.
    fn shift(&self, arith: Arith, left: u32, right: u32) -> u32 {
        let sign = if (left as i32) < 0 { u32::MAX } else { 0 };
        if right >= 32 && self.makes(Mistake::LongShiftZero) {
            return if arith == Arith::Shr { sign } else { 0 };
        }
        let count = right % 32;
        match arith {
            Arith::Shl => left << count,
            Arith::Shr => ((left as i32) >> count) as u32,
            _ => left >> count,
        }
    }
}
