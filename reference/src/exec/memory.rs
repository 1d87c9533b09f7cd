//! Loads, stores, pushes and pops.

use crate::machine::Machine;
use crate::mistake::Mistake;
use crate::opcodes::decode::{Base, Reg, Width};
use crate::types::Trap;
use crate::words::{extend_byte, extend_half};

fn size_of(width: Width) -> u32 {
    match width {
        Width::Word => 4,
        Width::SignedHalf | Width::Half => 2,
        Width::SignedByte | Width::Byte => 1,
    }
}

impl Machine {
    pub fn address(&self, base: Base, imm: u32) -> u32 {
        let start = match base {
            Base::Sp => self.regs.sp,
            Base::Pc => self.regs.pc,
            Base::RegA => self.regs.a,
            Base::RegB => self.regs.b,
        };
        start.wrapping_add(imm)
    }

    /// S and C forms extend the sign, H and B don't.
    pub fn load_register(
        &mut self,
        reg: Reg,
        base: Base,
        width: Width,
        imm: u32,
    ) -> Result<(), Trap> {
        let raw = self.read(self.address(base, imm), size_of(width))?;
        let value = match width {
            Width::SignedHalf => extend_half(raw),
            Width::SignedByte => extend_byte(raw),
            _ => raw,
        };
        self.set_register(reg, value);
        Ok(())
    }

    pub fn store_a(&mut self, base: Base, width: Width, imm: u32) -> Result<(), Trap> {
        let mut size = size_of(width);
        if width == Width::Byte {
            size = self.pick(Mistake::ByteStoresHalf, 2, 1);
        }
        self.write(self.address(base, imm), size, self.regs.a)
    }

    /// sp falls first; four bytes are stored and the other four keep. If the
    /// store faults, sp stays with the other registers.
    pub fn push(&mut self, value: u32) -> Result<(), Trap> {
        let sp = self.regs.sp.wrapping_sub(8);
        if self.makes(Mistake::FaultedPushKeepsSp) {
            self.regs.sp = sp;
        }
        self.write(sp, 4, value)?;
        self.regs.sp = sp;
        Ok(())
    }

    pub fn pop(&mut self, reg: Reg) -> Result<(), Trap> {
        let value = self.read(self.regs.sp, 4)?;
        self.set_register(reg, value);
        self.regs.sp = self.regs.sp.wrapping_add(8);
        Ok(())
    }
}
