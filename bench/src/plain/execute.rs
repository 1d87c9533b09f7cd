//! Every instruction, by its opcode byte.

use super::{Fault, Machine};

impl Machine {
    fn push(&mut self, v: u32) -> Result<(), Fault> {
        let s = self.sp.wrapping_sub(8);
        self.write32(s, v)?;
        self.sp = s;
        Ok(())
    }
    fn pop(&mut self) -> Result<u32, Fault> {
        let v = self.read32(self.sp)?;
        self.sp = self.sp.wrapping_add(8);
        Ok(v)
    }
    pub(super) fn jump(&mut self, t: u32) {
        self.pc = t & !3;
    }
    fn alu(&mut self, op: u8, y: u32) -> Result<(), Fault> {
        let x = self.a;
        self.a = match op {
            0 => x.wrapping_add(y),
            1 => x.wrapping_sub(y),
            2 => x.wrapping_mul(y),
            3 => {
                if y == 0 {
                    return Err(Fault::Code(6));
                }
                (x as i32).wrapping_div(y as i32) as u32
            }
            4 => {
                if y == 0 {
                    return Err(Fault::Code(6));
                }
                x / y
            }
            5 => {
                if y == 0 {
                    return Err(Fault::Code(6));
                }
                (x as i32).wrapping_rem(y as i32) as u32
            }
            6 => {
                if y == 0 {
                    return Err(Fault::Code(6));
                }
                x % y
            }
            7 => x & y,
            8 => x | y,
            9 => x ^ y,
            10 => x.wrapping_shl(y),
            11 => (x as i32).wrapping_shr(y) as u32,
            _ => x.wrapping_shr(y),
        };
        Ok(())
    }
    pub(super) fn execute(&mut self, ir: u32) -> Result<(), Fault> {
        let imm = ((ir as i32) >> 8) as u32;
        let (a, b, sp, pc) = (self.a, self.b, self.sp, self.pc);
        let op = ir as u8;
        match op {
            0x01 => self.sp = sp.wrapping_add(imm) & !7,
            0x02 => {
                let v = self.read32(sp)?;
                self.sp = sp.wrapping_add(imm).wrapping_add(8) & !7;
                self.jump(v)
            }
            0x03 => self.jump(pc.wrapping_add(imm)),
            0x04 => self.jump(pc.wrapping_add(imm).wrapping_add(a >> 2)),
            0x05 => {
                self.push(pc)?;
                self.jump(pc.wrapping_add(imm))
            }
            0x06 => {
                self.push(pc)?;
                self.jump(pc.wrapping_add(a))
            }
            0x07 => self.a = sp.wrapping_add(imm),
            0x08 => self.a = pc.wrapping_add(imm),
            0x09 => self.a = self.count as u32,
            0x0a => {
                if self.c != 0 {
                    let x = self.read8(b)?;
                    self.write8(a, x)?;
                    self.a = a.wrapping_add(1);
                    self.b = b.wrapping_add(1);
                    self.c -= 1;
                    self.pc = pc.wrapping_sub(4);
                }
            }
            0x0b => {
                if self.c == 0 {
                    self.a = 0
                } else {
                    let x = self.read8(b)?;
                    let y = self.read8(a)?;
                    if x != y {
                        self.a = (x as u32).wrapping_sub(y as u32);
                        self.b = b.wrapping_add(self.c);
                        self.c = 0
                    } else {
                        self.a = a.wrapping_add(1);
                        self.b = b.wrapping_add(1);
                        self.c -= 1;
                        self.pc = pc.wrapping_sub(4);
                    }
                }
            }
            0x0c => {
                if self.c == 0 {
                    self.a = 0
                } else {
                    let y = self.read8(a)?;
                    if y == b as u8 {
                        self.c = 0
                    } else {
                        self.a = a.wrapping_add(1);
                        self.c -= 1;
                        self.pc = pc.wrapping_sub(4);
                    }
                }
            }
            0x0d => {
                if self.c != 0 {
                    self.write8(a, b as u8)?;
                    self.a = a.wrapping_add(1);
                    self.c -= 1;
                    self.pc = pc.wrapping_sub(4);
                }
            }
            0x0e => self.a = self.read32(sp.wrapping_add(imm))?,
            0x0f => self.a = self.read16(sp.wrapping_add(imm))? as i16 as u32,
            0x10 => self.a = self.read16(sp.wrapping_add(imm))? as u32,
            0x11 => self.a = self.read8(sp.wrapping_add(imm))? as i8 as u32,
            0x12 => self.a = self.read8(sp.wrapping_add(imm))? as u32,
            0x15 => self.a = self.read32(pc.wrapping_add(imm))?,
            0x16 => self.a = self.read16(pc.wrapping_add(imm))? as i16 as u32,
            0x17 => self.a = self.read16(pc.wrapping_add(imm))? as u32,
            0x18 => self.a = self.read8(pc.wrapping_add(imm))? as i8 as u32,
            0x19 => self.a = self.read8(pc.wrapping_add(imm))? as u32,
            0x1c => self.a = self.read32(a.wrapping_add(imm))?,
            0x1d => self.a = self.read16(a.wrapping_add(imm))? as i16 as u32,
            0x1e => self.a = self.read16(a.wrapping_add(imm))? as u32,
            0x1f => self.a = self.read8(a.wrapping_add(imm))? as i8 as u32,
            0x20 => self.a = self.read8(a.wrapping_add(imm))? as u32,
            0x23 => self.a = imm,
            0x24 => self.a = (a << 24) | (ir >> 8),
            0x26 => self.b = self.read32(sp.wrapping_add(imm))?,
            0x27 => self.b = self.read16(sp.wrapping_add(imm))? as i16 as u32,
            0x28 => self.b = self.read16(sp.wrapping_add(imm))? as u32,
            0x29 => self.b = self.read8(sp.wrapping_add(imm))? as i8 as u32,
            0x2a => self.b = self.read8(sp.wrapping_add(imm))? as u32,
            0x2d => self.b = self.read32(pc.wrapping_add(imm))?,
            0x2e => self.b = self.read16(pc.wrapping_add(imm))? as i16 as u32,
            0x2f => self.b = self.read16(pc.wrapping_add(imm))? as u32,
            0x30 => self.b = self.read8(pc.wrapping_add(imm))? as i8 as u32,
            0x31 => self.b = self.read8(pc.wrapping_add(imm))? as u32,
            0x34 => self.b = self.read32(b.wrapping_add(imm))?,
            0x35 => self.b = self.read16(b.wrapping_add(imm))? as i16 as u32,
            0x36 => self.b = self.read16(b.wrapping_add(imm))? as u32,
            0x37 => self.b = self.read8(b.wrapping_add(imm))? as i8 as u32,
            0x38 => self.b = self.read8(b.wrapping_add(imm))? as u32,
            0x3b => self.b = imm,
            0x3c => self.b = (b << 24) | (ir >> 8),
            0x3e => self.b = a,
            0x40 => self.write32(sp.wrapping_add(imm), a)?,
            0x41 => self.write16(sp.wrapping_add(imm), a as u16)?,
            0x42 => self.write8(sp.wrapping_add(imm), a as u8)?,
            0x45 => self.write32(pc.wrapping_add(imm), a)?,
            0x46 => self.write16(pc.wrapping_add(imm), a as u16)?,
            0x47 => self.write8(pc.wrapping_add(imm), a as u8)?,
            0x4a => self.write32(b.wrapping_add(imm), a)?,
            0x4b => self.write16(b.wrapping_add(imm), a as u16)?,
            0x4c => self.write8(b.wrapping_add(imm), a as u8)?,
            0x53..=0x79 => {
                let k = op - 0x53;
                let y = match k % 3 {
                    0 => b,
                    1 => imm,
                    _ => self.read32(sp.wrapping_add(imm))?,
                };
                self.alu(k / 3, y)?
            }
            0x7a => self.a = (a == b) as u32,
            0x7c => self.a = (a != b) as u32,
            0x7e => self.a = ((a as i32) < b as i32) as u32,
            0x7f => self.a = (a < b) as u32,
            0x81 => self.a = ((a as i32) >= b as i32) as u32,
            0x82 => self.a = (a >= b) as u32,
            0x84 => {
                if a == 0 {
                    self.jump(pc.wrapping_add(imm))
                }
            }
            0x86 => {
                if a != 0 {
                    self.jump(pc.wrapping_add(imm))
                }
            }
            0x88 => {
                if a == b {
                    self.jump(pc.wrapping_add(imm))
                }
            }
            0x8a => {
                if a != b {
                    self.jump(pc.wrapping_add(imm))
                }
            }
            0x8c => {
                if (a as i32) < b as i32 {
                    self.jump(pc.wrapping_add(imm))
                }
            }
            0x8d => {
                if a < b {
                    self.jump(pc.wrapping_add(imm))
                }
            }
            0x8f => {
                if a as i32 >= b as i32 {
                    self.jump(pc.wrapping_add(imm))
                }
            }
            0x90 => {
                if a >= b {
                    self.jump(pc.wrapping_add(imm))
                }
            }
            0x9b => {}
            0x9d => self.push(a)?,
            0x9e => self.push(imm)?,
            0xa0 => self.push(b)?,
            0xa1 => self.b = self.pop()?,
            0xa3 => self.a = self.pop()?,
            0xa9 => return Err(Fault::Code(5)),
            0xac => self.c = self.read32(sp.wrapping_add(imm))?,
            0xad => self.c = a,
            0xae => self.push(self.c)?,
            0xaf => self.c = self.pop()?,
            0x00 | 0x96..=0x9a | 0x9c | 0xa4..=0xa8 | 0xaa | 0xab | 0xb0 | 0xd1 => {
                if self.user {
                    return Err(Fault::Code(3));
                }
                match op {
                    0x00 => self.stop = 1,
                    0x96 => {
                        self.a = self.iena as u32;
                        self.iena = false
                    }
                    0x97 => self.iena = true,
                    0x98 => {
                        let code = self.read32(sp)?;
                        let v = self.read32(sp.wrapping_add(8))?;
                        self.jump(v);
                        self.sp = sp.wrapping_add(16);
                        self.iena = true;
                        if code & 16 != 0 {
                            self.ksp = self.sp;
                            self.sp = self.usp;
                            self.user = true;
                        }
                    }
                    0x99 => {
                        self.a = self.kbchar;
                        self.kbchar = !0
                    }
                    0x9a => {
                        if self.written < self.console.len() {
                            self.console[self.written] = b as u8;
                            self.written += 1;
                            self.a = 1
                        } else {
                            self.a = !0
                        }
                    }
                    0x9c => self.ksp = a & !7,
                    0xa4 => self.ivec = a & !3,
                    0xa5 => {
                        if a as usize >= self.memory.len() {
                            return Err(Fault::At(0, 1, a));
                        }
                        self.pdir = a & !0xFFF;
                        self.held = 0
                    }
                    0xa6 => {
                        self.paging = a != 0;
                        self.held = 0
                    }
                    0xa7 => {
                        if imm == 0 {
                            self.timeout = a
                        }
                    }
                    0xa8 => self.a = self.vadr,
                    0xaa => self.a = self.usp,
                    0xab => self.usp = a & !7,
                    0xb0 => self.a = self.memory.len() as u32,
                    _ => self.waiting = self.iena,
                }
            }
            _ if self.mode => return self.execute_float(ir),
            _ => return Err(Fault::Code(4)),
        }
        Ok(())
    }
}
