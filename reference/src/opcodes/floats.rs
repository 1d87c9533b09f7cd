//! The 46 opcodes that document 02's item 7 adds: what each is. Written by hand
//! and held against the derived set by the tests.

use super::decode::Base::{self, *};
use Float::*;
use FloatReg::{F, G};
use Precision::{Double, Single};

/// "Loads to a, and stores, mean f; loads to b mean g."
#[derive(Clone, Copy, Debug, PartialEq, Eq)]
pub enum FloatReg {
    F,
    G,
}

/// The width of a load or store: eight bytes, or four that are widened and
/// narrowed.
#[derive(Clone, Copy, Debug, PartialEq, Eq)]
pub enum Precision {
    Double,
    Single,
}

#[derive(Clone, Copy, Debug, PartialEq, Eq)]
pub enum FloatArith {
    Addf,
    Subf,
    Mulf,
    Divf,
}

/// Comparisons of f with g; the first two, of f with zero, only in branches.
#[derive(Clone, Copy, Debug, PartialEq, Eq)]
pub enum FloatCond {
    Zero,
    NotZero,
    Eq,
    Ne,
    Lt,
    Ge,
}

/// Operations on f alone.
#[derive(Clone, Copy, Debug, PartialEq, Eq)]
pub enum Unary {
    Fabs,
    Flor,
    Ceil,
}

#[derive(Clone, Copy, Debug, PartialEq, Eq)]
pub enum Float {
    Load(FloatReg, Base, Precision),
    Store(Base, Precision),
    Push(FloatReg),
    Pop(FloatReg),
    LoadImm(FloatReg),
    Lbad,
    Arith(FloatArith),
    Compare(FloatCond),
    Branch(FloatCond),
    Cid,
    Cud,
    Cdi,
    Cdu,
    Unary(Unary),
}

/// The operation of a byte; `None` is one that the new mode doesn't add.
pub fn decode_float(code: u8) -> Option<Float> {
    Some(match code {
        0x13 => Load(F, Sp, Double),
        0x14 => Load(F, Sp, Single),
        0x1a => Load(F, Pc, Double),
        0x1b => Load(F, Pc, Single),
        0x21 => Load(F, RegA, Double),
        0x22 => Load(F, RegA, Single),
        0x25 => LoadImm(F),
        0x2b => Load(G, Sp, Double),
        0x2c => Load(G, Sp, Single),
        0x32 => Load(G, Pc, Double),
        0x33 => Load(G, Pc, Single),
        0x39 => Load(G, RegB, Double),
        0x3a => Load(G, RegB, Single),
        0x3d => LoadImm(G),
        0x3f => Lbad,
        0x43 => Store(Sp, Double),
        0x44 => Store(Sp, Single),
        0x48 => Store(Pc, Double),
        0x49 => Store(Pc, Single),
        0x4d => Store(RegB, Double),
        0x4e => Store(RegB, Single),
        0x9f => Push(F),
        0xa2 => Pop(F),
        0xb1 => Push(G),
        0xb2 => Pop(G),
        _ => return decode_calculation(code),
    })
}

fn decode_calculation(code: u8) -> Option<Float> {
    Some(match code {
        0x4f => Arith(FloatArith::Addf),
        0x50 => Arith(FloatArith::Subf),
        0x51 => Arith(FloatArith::Mulf),
        0x52 => Arith(FloatArith::Divf),
        0x7b => Compare(FloatCond::Eq),
        0x7d => Compare(FloatCond::Ne),
        0x80 => Compare(FloatCond::Lt),
        0x83 => Compare(FloatCond::Ge),
        0x85 => Branch(FloatCond::Zero),
        0x87 => Branch(FloatCond::NotZero),
        0x89 => Branch(FloatCond::Eq),
        0x8b => Branch(FloatCond::Ne),
        0x8e => Branch(FloatCond::Lt),
        0x91 => Branch(FloatCond::Ge),
        0x92 => Cid,
        0x93 => Cud,
        0x94 => Cdi,
        0x95 => Cdu,
        0xbe => Unary(self::Unary::Fabs),
        0xc4 => Unary(self::Unary::Flor),
        0xc5 => Unary(self::Unary::Ceil),
        _ => return None,
    })
}
