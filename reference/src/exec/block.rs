//! Block opcodes: one byte a step by the source's loops. With c = 0 they
//! finish; otherwise pc returns to the instruction unless the loop broke.

use crate::machine::Machine;
use crate::mistake::Mistake;
use crate::opcodes::decode::Block;
use crate::types::{Access, Trap};
use crate::words::extend_byte;

impl Machine {
    pub fn block(&mut self, block: Block) -> Result<(), Trap> {
        let short = self.regs.c & 0xffff;
        if self.pick(Mistake::BlockShortCount, short, self.regs.c) == 0 {
            if matches!(block, Block::Mcmp | Block::Mchr) {
                self.regs.a = 0;
            }
            return Ok(());
        }
        match block {
            Block::Mcpy => self.mcpy(),
            Block::Mcmp => self.mcmp(),
            Block::Mchr => self.mchr(),
            Block::Mset => self.mset(),
        }
    }

    fn mcpy(&mut self) -> Result<(), Trap> {
        self.misread_order(Access::Write)?;
        let byte = self.read(self.regs.b, 1)?;
        self.write(self.regs.a, 1, byte)?;
        self.regs.b = self.regs.b.wrapping_add(1);
        self.go_on();
        Ok(())
    }

    /// b's byte minus a's, both unsigned; b moves by the c of that moment.
    fn mcmp(&mut self) -> Result<(), Trap> {
        self.misread_order(Access::Read)?;
        let of_b = self.read(self.regs.b, 1)?;
        let of_a = self.read(self.regs.a, 1)?;
        if of_b != of_a {
            let (left, right) = self.pick(Mistake::McmpReversed, (of_a, of_b), (of_b, of_a));
            let signed = extend_byte(left).wrapping_sub(extend_byte(right));
            self.regs.a = self.pick(Mistake::McmpSigned, signed, left.wrapping_sub(right));
            self.regs.b = self.regs.b.wrapping_add(self.regs.c);
            self.regs.c = 0;
            return Ok(());
        }
        self.regs.b = self.regs.b.wrapping_add(1);
        self.go_on();
        Ok(())
    }

    fn mchr(&mut self) -> Result<(), Trap> {
        let sought = self.pick(Mistake::MchrWholeB, self.regs.b, self.regs.b & 0xff);
        let byte = self.read(self.regs.a, 1)?;
        if self.pick(Mistake::MchrSigned, extend_byte(byte), byte) == sought {
            self.regs.c = 0;
        } else {
            self.go_on();
        }
        Ok(())
    }

    fn mset(&mut self) -> Result<(), Trap> {
        self.write(self.regs.a, 1, self.regs.b)?;
        self.go_on();
        Ok(())
    }

    fn go_on(&mut self) {
        self.regs.a = self.regs.a.wrapping_add(1);
        self.regs.c -= 1;
        if !(self.regs.c == 0 && self.makes(Mistake::BlockEndsEarly)) {
            self.regs.pc = self.regs.pc.wrapping_sub(4);
        }
    }

    /// Planted mistake only: both are translated, b first, before b is read.
    fn misread_order(&mut self, access_of_a: Access) -> Result<(), Trap> {
        if self.makes(Mistake::BlockTranslatesFirst) {
            self.reach(self.regs.b, Access::Read, 1)?;
            self.reach(self.regs.a, access_of_a, 1)?;
        }
        Ok(())
    }
}
