//! Random doubles, and gestures on them.

use super::program::Writer;
use super::rng::Rng;
use super::values::number;
use crate::directed::doubles::SPECIAL;
use crate::double::SIGN;
use crate::opcodes::decode::Reg;
use crate::opcodes::floats::{decode_float, Float, FloatReg};
use crate::opcodes::sets::FLOATING;

const LEAST: u64 = 1 << 52;
const MOST: u64 = 0x7fef_ffff_ffff_ffff;
const INFINITY: u64 = 0x7ff0_0000_0000_0000;
/// Operands of which something comes that is no usual number.
const EXTREME: [(u64, u64); 8] = [
    (INFINITY, INFINITY),
    (0, INFINITY),
    (0, 0),
    (MOST, MOST),
    (LEAST, 0x3ff8_0000_0000_0000),
    (LEAST, 0x3fe8_0000_0000_0000),
    (LEAST, 1),
    (MOST, LEAST),
];

const ARITHMETIC: [&str; 4] = ["ADDF", "SUBF", "MULF", "DIVF"];
const UNARY: [&str; 3] = ["FABS", "FLOR", "CEIL"];

/// Such operands, and the mnemonic of an operation on them.
pub fn extreme(rng: &mut Rng) -> (u64, u64, &'static str) {
    let (f, g) = rng.pick(&EXTREME);
    let name = if rng.percent(80) { rng.pick(&ARITHMETIC) } else { rng.pick(&UNARY) };
    (f | (rng.next64() & SIGN), g | (rng.next64() & SIGN), name)
}

/// A double: one at an edge, one of many digits, one that rounds to a single.
pub fn double(rng: &mut Rng) -> u64 {
    let (sign, digits) = (rng.next64() & SIGN, rng.next64() >> 12);
    let field = |rng: &mut Rng, low: u32, count: u32| u64::from(low + rng.below(count)) << 52;
    match rng.weighted(&[8, 4, 4, 4, 2, 2]) {
        0 => rng.pick(&SPECIAL),
        // Sums of two of these round.
        1 => sign | field(rng, 1003, 40) | digits,
        2 => sign | about_single(rng, digits),
        3 => integer(rng),
        // Products and quotients of two of these are about the smallest or the
        // largest.
        4 => sign | field(rng, 480, 60) | digits,
        _ => sign | field(rng, 0, 2048) | digits,
    }
}

/// A number with few digits more than a single has there, often in the middle
/// between two.
fn about_single(rng: &mut Rng, digits: u64) -> u64 {
    let (low, count) = rng.pick(&[(870, 30), (890, 12), (1015, 140)]);
    let field = low + rng.below(count);
    let drop = if field >= 897 { 29 } else { (926 - field).min(52) };
    let kept = digits >> (drop - 1) << (drop - 1);
    let beside = rng.pick(&[0, 0, 1]);
    u64::from(field) << 52 | kept | beside
}

/// An integer of 32 bits, or something less than 1 beside it.
fn integer(rng: &mut Rng) -> u64 {
    let word = number(rng, 4096);
    let value = if rng.percent(50) { f64::from(word) } else { f64::from(word as i32) };
    let beside = rng.pick(&[0.0, 0.0, 0.25, -0.25, 0.5, -0.5, 0.9, -0.9]);
    (value + beside).to_bits()
}

impl Writer<'_> {
    /// Brings a pattern into f or g, through the stack.
    pub fn double_constant(&mut self, reg: FloatReg, bits: u64) {
        self.op("ENT", -8);
        for (at, half) in [(0, bits as u32), (4, (bits >> 32) as u32)] {
            self.constant(Reg::A, half);
            self.op("SL", at);
        }
        self.op(if reg == FloatReg::F { "POPF" } else { "POPG" }, 0);
    }

    /// One gesture on f and g.
    pub fn floating(&mut self) {
        match self.rng.weighted(&[10, 14, 5, 3, 2]) {
            0 => {
                let code = self.rng.pick(&FLOATING);
                self.suited(code);
            }
            1 => self.calculation(),
            2 => self.pointed_double(),
            3 => self.pick_op(&["PSHF", "PSHG", "POPF", "POPG", "LBAD", "LIF", "LBIF"]),
            _ => {
                let word = number(self.rng, self.space.memory_size);
                self.constant(Reg::A, word);
                self.pick_op(&["CID", "CUD"]);
            }
        }
    }

    /// New operands, often equal or of the other sign, and operations on them.
    fn calculation(&mut self) {
        if self.rng.percent(50) {
            return self.extreme();
        }
        let f = double(self.rng);
        let other = double(self.rng);
        let g = self.rng.pick(&[f, f ^ SIGN, other, other, other]);
        if self.rng.percent(80) {
            self.double_constant(FloatReg::F, f);
        }
        if self.rng.percent(60) {
            self.double_constant(FloatReg::G, g);
        }
        for _ in 0..1 + self.rng.below(3) {
            let code = self.calculating();
            self.suited(code);
        }
    }

    fn extreme(&mut self) {
        let (f, g, name) = extreme(self.rng);
        self.double_constant(FloatReg::F, f);
        self.double_constant(FloatReg::G, g);
        self.op(name, 0);
        self.pick_op(&["EQF", "BEF", "BZF", "CDI", "SLF", "SLD"]);
    }

    /// An opcode on f and g that reaches no memory, or a store of a single.
    fn calculating(&mut self) -> u8 {
        loop {
            let code = self.rng.pick(&FLOATING);
            match decode_float(code) {
                Some(Float::Arith(_) | Float::Compare(_) | Float::Branch(_)) => return code,
                Some(Float::Unary(_) | Float::Cdi | Float::Cdu) => return code,
                Some(Float::Store(..)) => return code,
                _ => {}
            }
        }
    }

    fn pointed_double(&mut self) {
        let address = self.space.address(self.rng);
        if self.rng.percent(35) {
            self.constant(Reg::A, address);
            return self.pick_op(&["LXD", "LXF"]);
        }
        self.constant(Reg::B, address);
        self.pick_op(&["LBXD", "LBXF", "SXD", "SXD", "SXF", "SXF"]);
    }
}
