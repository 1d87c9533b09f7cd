//! Executing a fetched word: illegal opcode first, then privilege, then the
//! operation. pc has already moved. Document 01, "Opcodes".

mod arith;
mod block;
mod floats;
mod flow;
mod memory;
mod system;

use crate::machine::Machine;
use crate::mistake::Mistake;
use crate::opcodes::decode::{decode_in, Op, Reg, System};
use crate::types::Trap;
use crate::words::{extend_half, field, immediate};

/// Planted mistake only: the opcodes of 000's section "math".
fn is_math(code: u8) -> bool {
    (0xbc..=0xd0).contains(&code) && decode_in(code, true).is_none()
}

impl Machine {
    pub fn execute(&mut self, word: u32) -> Result<(), Trap> {
        let Some(op) = self.decoded(word as u8) else { return Err(Trap::Finst) };
        if self.regs.user && self.is_privileged(op) {
            self.misread_privilege(op)?;
            return Err(Trap::Fpriv);
        }
        let imm = self.imm(word);
        match op {
            Op::Nop => Ok(()),
            Op::Trap => Err(Trap::Fsys),
            Op::Load(reg, base, width) => self.load_register(reg, base, width, imm),
            Op::Store(base, width) => self.store_a(base, width, imm),
            Op::Push(reg) => self.push(self.register(reg)),
            Op::Pshi => self.push(self.pick(Mistake::PshiUnsigned, field(word), imm)),
            Op::Pop(reg) => self.pop(reg),
            Op::Arith(arith, source) => self.arithmetic(arith, source, word),
            Op::Block(block) => self.block(block),
            Op::System(system) => self.system(system, imm),
            Op::Float(float) => self.float(float, imm),
            Op::Lev => self.lev(imm),
            Op::Jsr => self.call(self.regs.pc.wrapping_add(imm)),
            Op::Jsra => {
                let relative = self.regs.pc.wrapping_add(self.regs.a);
                self.call(self.pick(Mistake::JsraAbsolute, self.regs.a, relative))
            }
            _ => {
                self.execute_plain(op, word);
                Ok(())
            }
        }
    }

    /// The operations that neither reach memory nor fault.
    fn execute_plain(&mut self, op: Op, word: u32) {
        let imm = self.imm(word);
        match op {
            Op::LoadImm(reg) => self.set_register(reg, imm),
            Op::LoadHigh(reg) => {
                let low = self.pick(Mistake::LhiShiftedAgain, field(word) >> 8, field(word));
                self.set_register(reg, (self.register(reg) << 24) + low);
            }
            Op::Lba => self.regs.b = self.regs.a,
            Op::Lca => self.regs.c = self.regs.a,
            Op::Lea => self.regs.a = self.regs.sp.wrapping_add(imm),
            Op::Leag => self.regs.a = self.regs.pc.wrapping_add(imm),
            Op::Cyc => {
                let count = self.pick(Mistake::CycOldCount, self.regs.count - 1, self.regs.count);
                self.regs.a = self.pick(Mistake::CycLow31, count as u32 & !(1 << 31), count as u32);
            }
            Op::Compare(cond) => self.regs.a = u32::from(self.holds(cond)),
            Op::Branch(cond) => self.branch(cond, imm),
            Op::Ent => self.set_sp(self.regs.sp.wrapping_add(imm)),
            Op::Jmp => self.set_pc(self.regs.pc.wrapping_add(imm)),
            Op::Jmpi => self.jmpi(imm),
            _ => unreachable!("{op:?} has its own family"),
        }
    }

    /// The old mode keeps document 01's table.
    fn decoded(&self, code: u8) -> Option<Op> {
        let mode = self.regs.mode;
        match self.mistake {
            Some(Mistake::As(byte, other, of)) if (byte, of) == (code, mode) => {
                decode_in(other, true)
            }
            Some(Mistake::BinIllegal) if code == 0x99 => None,
            Some(Mistake::NetworkNops) if (0xb3..=0xbb).contains(&code) => Some(Op::Nop),
            Some(Mistake::ModeIgnored) => decode_in(code, true),
            Some(Mistake::MathLegal) if mode && is_math(code) => Some(Op::Nop),
            _ => decode_in(code, mode),
        }
    }

    /// The system operations are the sixteen privileged ones.
    fn is_privileged(&self, op: Op) -> bool {
        if self.makes(Mistake::Open(self.opcode)) {
            return false;
        }
        let Op::System(system) = op else { return self.makes(Mistake::Privileged(self.opcode)) };
        match system {
            System::Ssp => !self.makes(Mistake::SspOpen),
            System::Msiz | System::Lvad | System::Lusp => !self.makes(Mistake::ReadersOpen),
            _ => true,
        }
    }

    pub fn register(&self, reg: Reg) -> u32 {
        match reg {
            Reg::A => self.regs.a,
            Reg::B => self.regs.b,
            Reg::C => self.regs.c,
        }
    }

    pub fn set_register(&mut self, reg: Reg, value: u32) {
        match reg {
            Reg::A => self.regs.a = value,
            Reg::B => self.regs.b = value,
            Reg::C => self.regs.c = value,
        }
    }

    /// "sp, usp and ksp, set by any instruction, drop their low three bits".
    pub fn set_sp(&mut self, value: u32) {
        self.regs.sp = self.stack(value);
    }

    pub fn stack(&self, value: u32) -> u32 {
        self.pick(Mistake::StackKeepsLowBits(self.opcode), value, value & !7)
    }

    /// "pc and ivec their low two".
    pub fn set_pc(&mut self, value: u32) {
        self.regs.pc = self.target(value);
    }

    pub fn target(&self, value: u32) -> u32 {
        self.pick(Mistake::TargetKeepsLowBits(self.opcode), value, value & !3)
    }

    /// The upper 24 bits, signed.
    pub fn imm(&self, word: u32) -> u32 {
        if self.makes(Mistake::ImmediateIsUnsigned(self.opcode)) {
            return field(word);
        }
        let short = extend_half(immediate(word));
        self.pick(Mistake::ImmediateIsShort(self.opcode), short, immediate(word))
    }

    /// Planted mistake only: what RTI and PDIR would fault with first.
    fn misread_privilege(&mut self, op: Op) -> Result<(), Trap> {
        if !self.makes(Mistake::PrivilegeLast) {
            return Ok(());
        }
        match op {
            Op::System(System::Rti) => self.read(self.regs.sp, 4).map(|_| ()),
            Op::System(System::Pdir) if self.regs.a >= self.memory_size() => Err(Trap::Fmem),
            _ => Ok(()),
        }
    }
}
