//! Planted mistakes about narrowing, and narrowing in integers.

use crate::double::{self, is_nan, SIGN};
use crate::machine::Machine;
use crate::mistake::Mistake;

impl Machine {
    pub fn misnarrowed(&self, x: u64, rule: u32) -> u32 {
        let sign = ((x >> 32) as u32) & 0x8000_0000;
        let nan = is_nan(x);
        match self.mistake {
            Some(Mistake::NarrowNanKept) if nan => {
                sign | double::SINGLE_NAN | (x >> 29) as u32 & 0x3f_ffff
            }
            Some(Mistake::NarrowNanSign) if nan => sign | double::SINGLE_NAN,
            Some(Mistake::NarrowFlushes) if f32::from_bits(rule).is_subnormal() => sign,
            Some(Mistake::NarrowSaturates) if rule & !(1 << 31) == 0x7f80_0000 => {
                let infinite = f64::from_bits(x).is_infinite();
                rule - u32::from(!infinite)
            }
            Some(Mistake::NarrowTruncates) if !nan => sign | narrow(x, Rounding::Down),
            Some(Mistake::NarrowTiesAway) if !nan => sign | narrow(x, Rounding::TiesAway),
            Some(Mistake::NarrowTwice) if !nan => sign | narrow(x, Rounding::Twice),
            _ => rule,
        }
    }
}

/// How the digits that a single has no room for are rounded.
#[derive(Clone, Copy, PartialEq, Eq)]
pub enum Rounding {
    /// The rule: to nearest, ties to even.
    Even,
    Down,
    TiesAway,
    /// To 24 digits first, also where a subnormal has fewer.
    Twice,
}

/// `digits` without the lowest `drop`.
fn rounded(digits: u64, drop: u64, rounding: Rounding) -> u64 {
    if drop == 0 {
        return digits;
    }
    let (kept, rest, half) = (digits >> drop, digits & ((1 << drop) - 1), 1 << (drop - 1));
    let up = match rounding {
        Rounding::Down => false,
        Rounding::TiesAway => rest >= half,
        Rounding::Even | Rounding::Twice => rest > half || (rest == half && kept % 2 == 1),
    };
    kept + u64::from(up)
}

/// The magnitude of what is no NaN, narrowed in integers.
pub fn narrow(x: u64, rounding: Rounding) -> u32 {
    const INFINITY: u64 = 0x7f80_0000;
    let magnitude = x & !SIGN;
    let field = magnitude >> 52;
    if field >= 897 {
        let most = if rounding == Rounding::Down && field < 2047 { INFINITY - 1 } else { INFINITY };
        return rounded(magnitude - (896 << 52), 29, rounding).min(most) as u32;
    }
    let digits = (magnitude & ((1 << 52) - 1)) + (u64::from(field > 0) << 52);
    let drop = 926 - field.max(1);
    match rounding {
        _ if drop > 63 => 0,
        Rounding::Twice => rounded(rounded(digits, 29, rounding), drop - 29, rounding) as u32,
        _ => rounded(digits, drop, rounding) as u32,
    }
}
