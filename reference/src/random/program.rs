//! Random programs: words of the whole table, biased to legal opcodes, and
//! gestures that lead registers to places worth touching.

use super::rng::Rng;
use super::space::{bits, Space};
use super::values::number;
use crate::double::NAN;
use crate::opcodes::decode::{decode_in, Base, Op, Reg, Source, System};
use crate::opcodes::floats::{Float, FloatReg};
use crate::opcodes::kinds::{base_of, can_fault_in_kernel};
use crate::opcodes::sets::{code_of, name_of, FLOATING, LEGAL, LEGAL_WITH_DOUBLES};
use crate::types::PAGE;
use crate::words::instruction;

pub struct Writer<'a> {
    pub rng: &'a mut Rng,
    pub space: &'a Space,
    /// Whether the program is for the mode with doubles.
    pub mode: bool,
    pub words: Vec<u32>,
}

impl<'a> Writer<'a> {
    pub fn new(rng: &'a mut Rng, space: &'a Space, mode: bool) -> Writer<'a> {
        Writer { rng, space, mode, words: Vec::new() }
    }

    /// An opcode that is legal in the program's mode.
    fn legal_code(&mut self) -> u8 {
        if self.mode {
            self.rng.pick(&LEGAL_WITH_DOUBLES)
        } else {
            self.rng.pick(&LEGAL)
        }
    }

    /// A word with this mnemonic and operand.
    pub fn op(&mut self, name: &str, imm: i32) {
        self.words.push(instruction(code_of(name), imm as u32));
    }

    /// A word with this opcode and an immediate that suits it.
    pub fn suited(&mut self, code: u8) {
        let imm = decode_in(code, true).map_or(0, |op| self.immediate(op));
        let imm = if self.rng.percent(4) { self.rng.word() as i32 } else { imm };
        self.words.push(instruction(code, imm as u32));
    }

    fn immediate(&mut self, op: Op) -> i32 {
        let odd = if self.rng.percent(10) { self.rng.between(-3, 3) } else { 0 };
        let memory_size = self.space.memory_size;
        if let Some(base) = base_of(op) {
            let even = match base {
                Base::Sp => 4 * self.rng.between(-6, 12),
                Base::Pc => 4 * self.rng.between(-20, 200),
                Base::RegA | Base::RegB => self.rng.between(-8, 8),
            };
            return even.wrapping_add(odd);
        }
        let even = match op {
            Op::Arith(_, Source::Stack) => 4 * self.rng.between(-6, 12),
            Op::Branch(_) | Op::Jmp | Op::Jsr => 4 * self.rng.between(-6, 8),
            Op::Float(Float::Branch(_)) => 4 * self.rng.between(-6, 8),
            Op::Jmpi => 4 * self.rng.between(0, 6),
            Op::Ent | Op::Lev => 8 * self.rng.between(-3, 3),
            Op::LoadImm(_) if self.rng.percent(50) => self.space.address(self.rng) as i32,
            _ => number(self.rng, memory_size) as i32,
        };
        even.wrapping_add(odd)
    }

    /// Brings a constant into a, b or c (c through a).
    pub fn constant(&mut self, reg: Reg, value: u32) {
        let (low, high) = if reg == Reg::B { ("LBI", "LBHI") } else { ("LI", "LHI") };
        let signed = value as i32;
        if (-0x80_0000..0x80_0000).contains(&signed) {
            self.op(low, signed);
        } else {
            self.op(low, signed >> 24);
            self.op(high, signed & 0xff_ffff);
        }
        if reg == Reg::C {
            self.op("LCA", 0);
        }
    }

    pub fn pick_op(&mut self, names: &[&str]) {
        let code = code_of(self.rng.pick(names));
        self.suited(code);
    }

    /// One gesture of a program.
    pub fn gesture(&mut self) {
        let (faults, doubles) = if self.mode { (4, 40) } else { (2, 1) };
        match self.rng.weighted(&[36, 12, 8, 8, 6, 9, 6, 4, 4, 2, 8, 2, faults, 4, doubles]) {
            0 => self.legal(),
            1 => self.pointed_store(),
            2 => self.pointed_load(),
            3 => self.block(),
            4 => self.table_edit(),
            5 => self.system(),
            6 => self.trapping(),
            7 => self.return_from_trap(),
            8 => self.pick_op(&["JSR", "LEV", "JSRA", "JMPI", "ENT", "JMP"]),
            9 => self.sweep(),
            10 => self.arithmetic(),
            11 => self.block_on_tables(),
            12 => self.faulting(),
            13 => self.masked_stretch(),
            _ => self.floating(),
        }
    }

    /// Any opcode that can fault, with an operand that makes it.
    fn faulting(&mut self) {
        const BEYOND: i32 = 0x7f_f000;
        let added = self.mode && self.rng.percent(50);
        let code = loop {
            let code = if added { self.rng.pick(&FLOATING) } else { self.legal_code() };
            if decode_in(code, true).is_some_and(can_fault_in_kernel) {
                break code;
            }
        };
        let name = name_of(code);
        match decode_in(code, true) {
            Some(Op::Float(Float::Cdi | Float::Cdu)) => {
                self.double_constant(FloatReg::F, NAN);
                self.op(name, 0);
            }
            Some(op) if base_of(op).is_some() => self.op(name, BEYOND),
            Some(Op::Arith(_, Source::Immediate)) => self.op(name, 0),
            Some(Op::Arith(_, Source::Register)) => {
                self.constant(Reg::B, 0);
                self.op(name, 0);
            }
            Some(Op::Block(_) | Op::System(System::Pdir)) => {
                self.constant(Reg::A, BEYOND as u32);
                self.op(name, 0);
            }
            Some(Op::Arith(..)) => self.op(name, BEYOND),
            _ => {
                self.op("ENT", BEYOND);
                self.op(name, 0);
                self.op("ENT", -BEYOND);
            }
        }
    }

    /// Any legal opcode, HALT seldom.
    fn legal(&mut self) {
        let mut code = self.legal_code();
        if code == 0 && self.rng.percent(90) {
            code = code_of("ADDI");
        }
        self.suited(code);
    }

    fn pointed_store(&mut self) {
        let address = self.space.address(self.rng);
        self.constant(Reg::B, address);
        self.pick_op(&["SX", "SXH", "SXB", "LBX", "LBXS", "LBXH", "LBXC", "LBXB"]);
    }

    fn pointed_load(&mut self) {
        let address = self.space.address(self.rng);
        self.constant(Reg::A, address);
        self.pick_op(&["LX", "LXS", "LXH", "LXC", "LXB"]);
    }

    fn block(&mut self) {
        let count = self.rng.pick(&[0, 1, 1, 2, 3, 5, 9]);
        self.constant(Reg::C, count);
        let (to, from) = (self.space.address(self.rng), self.space.address(self.rng));
        self.constant(Reg::A, to);
        let bytes = [0, 0x100, 0x141, 0xffff_ff00, number(self.rng, self.space.memory_size)];
        let byte = self.rng.pick(&bytes);
        match self.rng.below(4) {
            0 => self.constant(Reg::B, byte),
            1 => self.constant(Reg::B, to),
            _ => self.constant(Reg::B, from),
        }
        self.pick_op(&["MCPY", "MCMP", "MCHR", "MSET"]);
    }

    /// Stores into a table word, at times with PDIR or SPAG to forget it.
    fn table_edit(&mut self) {
        let Some(word) = self.space.view(self.rng) else { return self.pointed_store() };
        let frames = self.space.memory_size / PAGE;
        let value = self.rng.below(frames) * PAGE + bits(self.rng, 20);
        self.constant(Reg::A, value);
        self.constant(Reg::B, word);
        self.pick_op(&["SX", "SX", "SXH", "SXB"]);
        if self.rng.percent(50) {
            self.constant(Reg::A, self.space.pdir);
            self.pick_op(&["PDIR", "PDIR", "SPAG"]);
        }
        if self.rng.percent(70) {
            self.pointed_load();
        }
    }

    /// Operands at the edges, often equal or -1, and an operation on them.
    fn arithmetic(&mut self) {
        let memory_size = self.space.memory_size;
        let left = number(self.rng, memory_size);
        let close = left.wrapping_add(self.rng.between(-1, 1) as u32);
        let other = number(self.rng, memory_size);
        let right = self.rng.pick(&[left, close, 0, u32::MAX, other]);
        self.constant(Reg::A, left);
        self.constant(Reg::B, right);
        let code = loop {
            let code = self.rng.pick(&LEGAL);
            if matches!(
                decode_in(code, false),
                Some(Op::Arith(..) | Op::Compare(_) | Op::Branch(_))
            ) {
                break code;
            }
        };
        let stacked = matches!(decode_in(code, false), Some(Op::Arith(_, Source::Stack)));
        if stacked && self.rng.percent(70) {
            self.op("PSHB", 0);
            return self.op(name_of(code), 0);
        }
        self.suited(code);
    }

    /// A block opcode that reads a table word and then walks through it.
    fn block_on_tables(&mut self) {
        let Some((page, view)) = self.space.word_of_page(self.rng) else { return self.block() };
        let count = 1 + self.rng.below(3);
        self.constant(Reg::C, count);
        let inside = self.rng.below(PAGE);
        self.constant(Reg::A, page * PAGE + inside);
        self.constant(Reg::B, view);
        self.pick_op(&["MCPY", "MCMP"]);
    }

    fn system(&mut self) {
        let names = ["IVEC", "SUSP", "SSP", "TIME", "SPAG", "PDIR", "BOUT", "BIN", "LVAD", "CYC"];
        let name = self.rng.pick(&names);
        let value = match name {
            "TIME" => self.rng.below(12),
            "PDIR" if self.rng.percent(80) => self.space.pdir,
            "SPAG" if self.rng.percent(80) => 1,
            _ if self.rng.percent(60) => self.space.address(self.rng),
            _ => number(self.rng, self.space.memory_size),
        };
        self.constant(Reg::A, value);
        let imm = if self.rng.percent(15) { self.rng.between(-1, 1) } else { 0 };
        self.op(name, imm);
    }

    /// Goes over many pages, one after the other, by a.
    fn sweep(&mut self) {
        let start = self.space.wide.unwrap_or(0);
        self.constant(Reg::A, start);
        self.op("LBA", 0);
        self.pick_op(&["LBXB", "SXB", "LBX"]);
        self.op("ADDI", PAGE as i32);
        self.op("JMP", -16);
    }
}

/// A program of about `length` words.
pub fn story(rng: &mut Rng, space: &Space, mode: bool, length: usize) -> Vec<u32> {
    let mut writer = Writer::new(rng, space, mode);
    if space.wide.is_some() && writer.rng.percent(50) {
        writer.sweep();
    }
    while writer.words.len() < length {
        writer.gesture();
    }
    writer.words
}

/// Opcode bytes in a row from `first` on, all 256, each with a suited operand.
pub fn drill(rng: &mut Rng, space: &Space, mode: bool, first: u8, length: usize) -> Vec<u32> {
    let mut writer = Writer::new(rng, space, mode);
    for nth in 0..length {
        writer.suited(first.wrapping_add(nth as u8));
    }
    writer.words
}

/// Words of any kind.
pub fn noise(rng: &mut Rng, length: usize) -> Vec<u32> {
    (0..length).map(|_| rng.word()).collect()
}

/// A handler: a few gestures, then RTI or whatever follows.
pub fn handler(rng: &mut Rng, space: &Space, mode: bool) -> Vec<u32> {
    let mut writer = Writer::new(rng, space, mode);
    for _ in 0..writer.rng.below(3) {
        writer.pick_op(&["LVAD", "BIN", "CYC", "LUSP", "MSIZ", "NOP", "BOUT", "POPB", "LL"]);
    }
    if writer.rng.percent(20) {
        writer.gesture();
    }
    if writer.rng.percent(10) {
        writer.op("STI", 0);
    }
    writer.op("RTI", 0);
    writer.words
}
