//! The instructions of document 02's item 7, which the mode with doubles adds. f and g are patterns; what is computed has one NaN.

use super::{Fault, Machine};

fn bits(value: f64) -> u64 {
    if value.is_nan() {
        0x7FF8_0000_0000_0000
    } else {
        value.to_bits()
    }
}

fn widened(single: u32) -> u64 {
    bits(f32::from_bits(single) as f64)
}

fn narrowed(double: u64) -> u32 {
    let single = f64::from_bits(double) as f32;
    if single.is_nan() {
        0x7FC0_0000
    } else {
        single.to_bits()
    }
}

impl Machine {
    fn push_double(&mut self, v: u64) -> Result<(), Fault> {
        let s = self.sp.wrapping_sub(8);
        self.write64(s, v)?;
        self.sp = s;
        Ok(())
    }
    fn pop_double(&mut self) -> Result<u64, Fault> {
        let v = self.read64(self.sp)?;
        self.sp = self.sp.wrapping_add(8);
        Ok(v)
    }
    fn read_single(&mut self, va: u32) -> Result<u64, Fault> {
        Ok(widened(self.read32(va)?))
    }
    fn write_single(&mut self, va: u32) -> Result<(), Fault> {
        self.write32(va, narrowed(self.f))
    }
    fn branch(&mut self, taken: bool, imm: u32) {
        if taken {
            self.jump(self.pc.wrapping_add(imm))
        }
    }
    pub(super) fn execute_float(&mut self, ir: u32) -> Result<(), Fault> {
        let imm = ((ir as i32) >> 8) as u32;
        let [a, b, sp, pc] = [self.a, self.b, self.sp, self.pc].map(|base| base.wrapping_add(imm));
        let (f, g) = (f64::from_bits(self.f), f64::from_bits(self.g));
        match ir as u8 {
            0x13 => self.f = self.read64(sp)?,
            0x14 => self.f = self.read_single(sp)?,
            0x1a => self.f = self.read64(pc)?,
            0x1b => self.f = self.read_single(pc)?,
            0x21 => self.f = self.read64(a)?,
            0x22 => self.f = self.read_single(a)?,
            0x25 => self.f = bits(imm as i32 as f64),
            0x2b => self.g = self.read64(sp)?,
            0x2c => self.g = self.read_single(sp)?,
            0x32 => self.g = self.read64(pc)?,
            0x33 => self.g = self.read_single(pc)?,
            0x39 => self.g = self.read64(b)?,
            0x3a => self.g = self.read_single(b)?,
            0x3d => self.g = bits(imm as i32 as f64),
            0x3f => self.g = self.f,
            0x43 => self.write64(sp, self.f)?,
            0x44 => self.write_single(sp)?,
            0x48 => self.write64(pc, self.f)?,
            0x49 => self.write_single(pc)?,
            0x4d => self.write64(b, self.f)?,
            0x4e => self.write_single(b)?,
            0x4f => self.f = bits(f + g),
            0x50 => self.f = bits(f - g),
            0x51 => self.f = bits(f * g),
            0x52 => self.f = bits(f / g),
            0x7b => self.a = (f == g) as u32,
            0x7d => self.a = (f != g) as u32,
            0x80 => self.a = (f < g) as u32,
            0x83 => self.a = (f >= g) as u32,
            0x85 => self.branch(f == 0.0, imm),
            0x87 => self.branch(f != 0.0, imm),
            0x89 => self.branch(f == g, imm),
            0x8b => self.branch(f != g, imm),
            0x8e => self.branch(f < g, imm),
            0x91 => self.branch(f >= g, imm),
            0x92 => self.f = bits(self.a as i32 as f64),
            0x93 => self.f = bits(self.a as f64),
            // between these bounds the cut number fits; a NaN is between none
            0x94 if f > -2147483649.0 && f < 2147483648.0 => self.a = f as i32 as u32,
            0x95 if f > -1.0 && f < 4294967296.0 => self.a = f as u32,
            0x94 | 0x95 => return Err(Fault::Code(6)),
            0x9f => self.push_double(self.f)?,
            0xa2 => self.f = self.pop_double()?,
            0xb1 => self.push_double(self.g)?,
            0xb2 => self.g = self.pop_double()?,
            0xbe => self.f = bits(f.abs()),
            0xc4 => self.f = bits(f.floor()),
            0xc5 => self.f = bits(f.ceil()),
            _ => return Err(Fault::Code(4)),
        }
        Ok(())
    }
}
