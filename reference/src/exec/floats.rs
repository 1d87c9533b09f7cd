//! The opcodes of document 02's item 7. Loads and stores of doubles, pushes, pops
//! and LBAD move eight bytes as they are, a NaN's too; what is computed, widened or
//! narrowed has one NaN.

use crate::double;
use crate::machine::Machine;
use crate::mistake::Mistake;
use crate::opcodes::decode::Base;
use crate::opcodes::floats::{Float, FloatCond, FloatReg, Precision};
use crate::types::Trap;

impl Machine {
    pub fn float(&mut self, float: Float, imm: u32) -> Result<(), Trap> {
        let (f, g) = (self.regs.f, self.regs.g);
        match float {
            Float::Load(reg, base, precision) => return self.load_float(reg, base, precision, imm),
            Float::Store(base, precision) => return self.store_float(base, precision, imm),
            Float::Push(reg) => return self.push_float(reg),
            Float::Pop(reg) => return self.pop_float(reg),
            Float::Cdi => self.regs.a = self.cut(true, f)?,
            Float::Cdu => self.regs.a = self.cut(false, f)?,
            Float::LoadImm(reg) => {
                let reg = self.pick(Mistake::LbifToF, FloatReg::F, reg);
                self.set_float(reg, double::of_signed(imm));
            }
            Float::Lbad => self.regs.g = self.moved(f),
            Float::Arith(arith) => {
                let result = double::arithmetic(arith, f, g);
                self.coverage.floats.calculated(arith, f, g, result);
                self.regs.f = self.miscalculated(arith, result)?;
            }
            Float::Compare(cond) => self.regs.a = u32::from(self.float_holds(cond, false)),
            Float::Branch(cond) => {
                if self.float_holds(cond, true) {
                    self.go_to_branch(imm);
                }
            }
            Float::Cid => self.regs.f = self.misconverted(double::of_signed(self.regs.a)),
            Float::Cud => self.regs.f = self.misconverted(double::of_unsigned(self.regs.a)),
            Float::Unary(unary) => {
                let result = double::unary(unary, f);
                self.coverage.floats.rounded(unary, f, result);
                self.regs.f = self.misrounded(unary, result);
            }
        }
        Ok(())
    }

    pub fn float_register(&self, reg: FloatReg) -> u64 {
        match reg {
            FloatReg::F => self.regs.f,
            FloatReg::G => self.regs.g,
        }
    }

    fn set_float(&mut self, reg: FloatReg, bits: u64) {
        match reg {
            FloatReg::F => self.regs.f = bits,
            FloatReg::G => self.regs.g = bits,
        }
    }

    /// A single is a four-byte access, and widened.
    fn load_float(
        &mut self,
        reg: FloatReg,
        base: Base,
        precision: Precision,
        imm: u32,
    ) -> Result<(), Trap> {
        let address = self.address(base, imm);
        let value = match precision {
            Precision::Double => {
                let bits = self.read_double(address)?;
                self.moved(bits)
            }
            Precision::Single => {
                let single = self.read(address, 4)?;
                let wide = double::widened(single);
                self.coverage.floats.widened(single, wide);
                self.miswidened(single, wide)
            }
        };
        self.set_float(reg, value);
        Ok(())
    }

    /// f, whatever the base is; a single is narrowed.
    fn store_float(&mut self, base: Base, precision: Precision, imm: u32) -> Result<(), Trap> {
        let address = self.address(base, imm);
        let by_b = base == Base::RegB && self.makes(Mistake::SxdStoresG);
        let value = if by_b { self.regs.g } else { self.regs.f };
        match precision {
            Precision::Double => self.write_double(address, self.moved(value)),
            Precision::Single => {
                let single = double::narrowed(value);
                self.write(address, 4, self.misnarrowed(value, single))?;
                self.coverage.floats.narrowed(value, single);
                Ok(())
            }
        }
    }

    /// sp falls first, and eight bytes are stored. If the store faults, sp stays.
    fn push_float(&mut self, reg: FloatReg) -> Result<(), Trap> {
        let sp = self.regs.sp.wrapping_sub(8);
        if self.makes(Mistake::FaultedPushKeepsSp) {
            self.regs.sp = sp;
        }
        let bits = self.moved(self.float_register(reg));
        let short = reg == FloatReg::G && self.makes(Mistake::PshgFourBytes)
            || reg == FloatReg::F && self.makes(Mistake::PshfFourBytes);
        if short {
            self.write(sp, 4, bits as u32)?;
        } else {
            self.write_double(sp, bits)?;
        }
        self.regs.sp = sp;
        Ok(())
    }

    fn pop_float(&mut self, reg: FloatReg) -> Result<(), Trap> {
        let bits = self.read_double(self.regs.sp)?;
        let short = self.pick(Mistake::PopFourBytes, bits & 0xffff_ffff, bits);
        self.set_float(reg, self.moved(short));
        self.regs.sp = self.regs.sp.wrapping_add(8);
        Ok(())
    }

    fn float_holds(&mut self, cond: FloatCond, branch: bool) -> bool {
        let (f, g) = (self.regs.f, self.regs.g);
        let rule = double::holds(cond, f, g);
        self.coverage.floats.compared(f, g);
        self.miscompared(cond, branch, rule)
    }

    /// FARITH where nothing is left that fits.
    fn cut(&mut self, signed: bool, f: u64) -> Result<u32, Trap> {
        let rule = if signed { double::cut_signed(f) } else { double::cut_unsigned(f) };
        self.coverage.floats.cut(signed, f, rule);
        self.miscut(signed, f, rule).ok_or(Trap::Farith)
    }
}
