//! Doubles and singles as bit patterns. Document 02, item 7: "Arithmetic is IEEE
//! 754 double, one rounding each"; a NaN that comes out is always the same.
//!
//! The operations are Rust's, which round to nearest, ties to even; no NaN's bits
//! are taken from them.

use crate::opcodes::floats::{FloatArith, FloatCond, Unary};

/// What every NaN result is, and every narrowed NaN.
pub const NAN: u64 = 0x7ff8_0000_0000_0000;
pub const SINGLE_NAN: u32 = 0x7fc0_0000;
/// The bit of the sign.
pub const SIGN: u64 = 1 << 63;

pub fn is_nan(x: u64) -> bool {
    f64::from_bits(x).is_nan()
}

/// A result's pattern.
pub fn bits(value: f64) -> u64 {
    if value.is_nan() {
        NAN
    } else {
        value.to_bits()
    }
}

pub fn arithmetic(arith: FloatArith, x: u64, y: u64) -> u64 {
    let (x, y) = (f64::from_bits(x), f64::from_bits(y));
    bits(match arith {
        FloatArith::Addf => x + y,
        FloatArith::Subf => x - y,
        FloatArith::Mulf => x * y,
        FloatArith::Divf => x / y,
    })
}

/// FABS, FLOR and CEIL. A zero keeps its sign, and CEIL of -0.5 is -0.
pub fn unary(unary: Unary, x: u64) -> u64 {
    let x = f64::from_bits(x);
    bits(match unary {
        Unary::Fabs => x.abs(),
        Unary::Flor => x.floor(),
        Unary::Ceil => x.ceil(),
    })
}

/// Of a NaN only what says "not equal" holds.
pub fn holds(cond: FloatCond, x: u64, y: u64) -> bool {
    let (x, y) = (f64::from_bits(x), f64::from_bits(y));
    match cond {
        FloatCond::Zero => x == 0.0,
        FloatCond::NotZero => x != 0.0,
        FloatCond::Eq => x == y,
        FloatCond::Ne => x != y,
        FloatCond::Lt => x < y,
        FloatCond::Ge => x >= y,
    }
}

/// "Single precision is widened exactly."
pub fn widened(single: u32) -> u64 {
    bits(f64::from(f32::from_bits(single)))
}

/// "Narrowed to nearest, ties to even."
pub fn narrowed(x: u64) -> u32 {
    let single = f64::from_bits(x) as f32;
    if single.is_nan() {
        SINGLE_NAN
    } else {
        single.to_bits()
    }
}

pub fn of_signed(word: u32) -> u64 {
    bits(f64::from(word as i32))
}

pub fn of_unsigned(word: u32) -> u64 {
    bits(f64::from(word))
}

/// "Cut toward zero; NaN or a value that doesn't fit afterwards" is `None`.
pub fn cut_signed(x: u64) -> Option<u32> {
    let cut = f64::from_bits(x).trunc();
    let fits = (f64::from(i32::MIN)..=f64::from(i32::MAX)).contains(&cut);
    fits.then_some(cut as i32 as u32)
}

pub fn cut_unsigned(x: u64) -> Option<u32> {
    let cut = f64::from_bits(x).trunc();
    let fits = (0.0..=f64::from(u32::MAX)).contains(&cut);
    fits.then_some(cut as u32)
}
