//! Jumps, branches, calls and returns. pc has already moved, so offsets count
//! from the next instruction.

use crate::machine::Machine;
use crate::mistake::Mistake;
use crate::opcodes::decode::Cond;
use crate::types::Trap;

impl Machine {
    /// Comparisons of a with b; GE and GEU are >=.
    pub fn holds(&self, cond: Cond) -> bool {
        let (a, b) = (self.regs.a, self.regs.b);
        let asked = self.pick(Mistake::ZeroBranchesAskB, b, a);
        let strict_ge = self.makes(Mistake::GeStrict) && a == b;
        match cond {
            Cond::Zero => asked == 0,
            Cond::NotZero => asked != 0,
            Cond::Eq => a == b,
            Cond::Ne => a != b,
            Cond::Lt => (a as i32) < b as i32,
            Cond::Ltu => a < b,
            Cond::Ge => a as i32 >= b as i32 && !strict_ge,
            Cond::Geu => a >= b && !strict_ge,
        }
    }

    pub fn branch(&mut self, cond: Cond, imm: u32) {
        if self.holds(cond) {
            self.go_to_branch(imm);
        }
    }

    pub fn go_to_branch(&mut self, imm: u32) {
        let own = self.regs.pc.wrapping_sub(4);
        let start = self.pick(Mistake::BranchFromOwnAddress, own, self.regs.pc);
        self.set_pc(start.wrapping_add(imm));
    }

    /// pc + imm + (a shifted right by 2, unsigned).
    pub fn jmpi(&mut self, imm: u32) {
        let rule = imm.wrapping_add(self.regs.a >> 2);
        let offset = self.pick(Mistake::JmpiSumShifted, imm.wrapping_add(self.regs.a) >> 2, rule);
        self.set_pc(self.regs.pc.wrapping_add(offset));
    }

    /// JSR and JSRA: push the moved pc, then go.
    pub fn call(&mut self, target: u32) -> Result<(), Trap> {
        if self.makes(Mistake::PushBeforeSpFalls) {
            self.write(self.regs.sp, 4, self.regs.pc)?;
            self.regs.sp = self.regs.sp.wrapping_sub(8);
        } else {
            self.push(self.regs.pc)?;
        }
        self.set_pc(target);
        Ok(())
    }

    pub fn lev(&mut self, imm: u32) -> Result<(), Trap> {
        let target = self.read(self.regs.sp, 4)?;
        self.set_pc(target);
        self.set_sp(self.regs.sp.wrapping_add(imm).wrapping_add(8));
        Ok(())
    }
}
