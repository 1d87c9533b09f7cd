//! The decoder: all 256 bytes, each an operation or illegal (`None`), in the old
//! mode and in that with doubles. Written by hand and held against the derived
//! sets by the tests.

use super::floats::{decode_float, Float};
use Base::*;
use Op::*;
use Source::*;

/// A register that is loaded, pushed or popped.
#[derive(Clone, Copy, Debug, PartialEq, Eq)]
pub enum Reg {
    A,
    B,
    C,
}

/// What an access's immediate is added to. `Pc` has already moved.
#[derive(Clone, Copy, Debug, PartialEq, Eq)]
pub enum Base {
    Sp,
    Pc,
    RegA,
    RegB,
}

/// The width of a load, and whether it extends the sign.
#[derive(Clone, Copy, Debug, PartialEq, Eq)]
pub enum Width {
    Word,
    SignedHalf,
    Half,
    SignedByte,
    Byte,
}

/// Where the second operand comes from.
#[derive(Clone, Copy, Debug, PartialEq, Eq)]
pub enum Source {
    Register,
    Immediate,
    Stack,
}

#[derive(Clone, Copy, Debug, PartialEq, Eq)]
pub enum Arith {
    Add,
    Sub,
    Mul,
    Div,
    Dvu,
    Mod,
    Mdu,
    And,
    Or,
    Xor,
    Shl,
    Shr,
    Sru,
}

/// Comparisons of a with b; the first two, of a with zero, only in branches.
#[derive(Clone, Copy, Debug, PartialEq, Eq)]
pub enum Cond {
    Zero,
    NotZero,
    Eq,
    Ne,
    Lt,
    Ltu,
    Ge,
    Geu,
}

#[derive(Clone, Copy, Debug, PartialEq, Eq)]
pub enum Block {
    Mcpy,
    Mcmp,
    Mchr,
    Mset,
}

#[derive(Clone, Copy, Debug, PartialEq, Eq)]
pub enum System {
    Halt,
    Cli,
    Sti,
    Rti,
    Bin,
    Bout,
    Ssp,
    Ivec,
    Pdir,
    Spag,
    Time,
    Lvad,
    Lusp,
    Susp,
    Msiz,
    Idle,
}

#[derive(Clone, Copy, Debug, PartialEq, Eq)]
pub enum Op {
    Ent,
    Lev,
    Jmp,
    Jmpi,
    Jsr,
    Jsra,
    Lea,
    Leag,
    Cyc,
    Nop,
    Trap,
    Lba,
    Lca,
    Pshi,
    Push(Reg),
    Pop(Reg),
    LoadImm(Reg),
    LoadHigh(Reg),
    Load(Reg, Base, Width),
    Store(Base, Width),
    Arith(Arith, Source),
    Compare(Cond),
    Branch(Cond),
    Block(Block),
    System(System),
    /// Only in the mode with doubles.
    Float(Float),
}

const WIDTHS: [Width; 5] =
    [Width::Word, Width::SignedHalf, Width::Half, Width::SignedByte, Width::Byte];
const STORE_WIDTHS: [Width; 3] = [Width::Word, Width::Half, Width::Byte];
const SOURCES: [Source; 3] = [Register, Immediate, Stack];
const ARITHS: [Arith; 13] = [
    Arith::Add,
    Arith::Sub,
    Arith::Mul,
    Arith::Div,
    Arith::Dvu,
    Arith::Mod,
    Arith::Mdu,
    Arith::And,
    Arith::Or,
    Arith::Xor,
    Arith::Shl,
    Arith::Shr,
    Arith::Sru,
];

/// The operation of a byte in the old mode, or in that with doubles.
pub fn decode_in(code: u8, mode: bool) -> Option<Op> {
    let added = || decode_float(code).filter(|_| mode).map(Op::Float);
    decode(code).or_else(added)
}

/// The operation of a byte in the old mode; `None` is illegal.
pub fn decode(code: u8) -> Option<Op> {
    let nth = |first: u8| usize::from(code - first);
    Some(match code {
        0x00..=0x0d => decode_first(code),
        0x0e..=0x12 => Load(Reg::A, Sp, WIDTHS[nth(0x0e)]),
        0x15..=0x19 => Load(Reg::A, Pc, WIDTHS[nth(0x15)]),
        0x1c..=0x20 => Load(Reg::A, RegA, WIDTHS[nth(0x1c)]),
        0x23 => LoadImm(Reg::A),
        0x24 => LoadHigh(Reg::A),
        0x26..=0x2a => Load(Reg::B, Sp, WIDTHS[nth(0x26)]),
        0x2d..=0x31 => Load(Reg::B, Pc, WIDTHS[nth(0x2d)]),
        0x34..=0x38 => Load(Reg::B, RegB, WIDTHS[nth(0x34)]),
        0x3b => LoadImm(Reg::B),
        0x3c => LoadHigh(Reg::B),
        0x3e => Lba,
        0x40..=0x42 => Store(Sp, STORE_WIDTHS[nth(0x40)]),
        0x45..=0x47 => Store(Pc, STORE_WIDTHS[nth(0x45)]),
        0x4a..=0x4c => Store(RegB, STORE_WIDTHS[nth(0x4a)]),
        0x53..=0x79 => Arith(ARITHS[nth(0x53) / 3], SOURCES[nth(0x53) % 3]),
        0x7a..=0x90 => return decode_cond(code),
        0x96..=0xb0 | 0xd1 => return decode_last(code),
        _ => return None,
    })
}

fn decode_first(code: u8) -> Op {
    match code {
        0x00 => System(System::Halt),
        0x01 => Ent,
        0x02 => Lev,
        0x03 => Jmp,
        0x04 => Jmpi,
        0x05 => Jsr,
        0x06 => Jsra,
        0x07 => Lea,
        0x08 => Leag,
        0x09 => Cyc,
        0x0a => Block(Block::Mcpy),
        0x0b => Block(Block::Mcmp),
        0x0c => Block(Block::Mchr),
        _ => Block(Block::Mset),
    }
}

fn decode_cond(code: u8) -> Option<Op> {
    Some(match code {
        0x7a => Compare(Cond::Eq),
        0x7c => Compare(Cond::Ne),
        0x7e => Compare(Cond::Lt),
        0x7f => Compare(Cond::Ltu),
        0x81 => Compare(Cond::Ge),
        0x82 => Compare(Cond::Geu),
        0x84 => Branch(Cond::Zero),
        0x86 => Branch(Cond::NotZero),
        0x88 => Branch(Cond::Eq),
        0x8a => Branch(Cond::Ne),
        0x8c => Branch(Cond::Lt),
        0x8d => Branch(Cond::Ltu),
        0x8f => Branch(Cond::Ge),
        0x90 => Branch(Cond::Geu),
        _ => return None,
    })
}

fn decode_last(code: u8) -> Option<Op> {
    Some(match code {
        0x96 => System(System::Cli),
        0x97 => System(System::Sti),
        0x98 => System(System::Rti),
        0x99 => System(System::Bin),
        0x9a => System(System::Bout),
        0x9b => Nop,
        0x9c => System(System::Ssp),
        0x9d => Push(Reg::A),
        0x9e => Pshi,
        0xa0 => Push(Reg::B),
        0xa1 => Pop(Reg::B),
        0xa3 => Pop(Reg::A),
        0xa4 => System(System::Ivec),
        0xa5 => System(System::Pdir),
        0xa6 => System(System::Spag),
        0xa7 => System(System::Time),
        0xa8 => System(System::Lvad),
        0xa9 => Trap,
        0xaa => System(System::Lusp),
        0xab => System(System::Susp),
        0xac => Load(Reg::C, Sp, Width::Word),
        0xad => Lca,
        0xae => Push(Reg::C),
        0xaf => Pop(Reg::C),
        0xb0 => System(System::Msiz),
        0xd1 => System(System::Idle),
        _ => return None,
    })
}
