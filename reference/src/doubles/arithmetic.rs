//! Planted mistakes about what is calculated.

use super::QUIET;
use crate::double::{self, bits, is_nan, NAN, SIGN};
use crate::machine::Machine;
use crate::mistake::Mistake;
use crate::opcodes::floats::{FloatArith, Unary};
use crate::types::Trap;

fn is_subnormal(x: u64) -> bool {
    f64::from_bits(x).is_subnormal()
}

/// The next number toward zero; zero stays.
fn smaller(x: u64) -> u64 {
    if x & !SIGN == 0 {
        x
    } else {
        x - 1
    }
}

impl Machine {
    /// What comes of an operation on f and g.
    pub fn miscalculated(&mut self, arith: FloatArith, rule: u64) -> Result<u64, Trap> {
        let (f, g) = (self.regs.f, self.regs.g);
        let invalid = rule == NAN && !is_nan(f) && !is_nan(g);
        let by_zero = arith == FloatArith::Divf && g & !SIGN == 0;
        let finite = |x: u64| f64::from_bits(x).is_finite();
        let beyond = f64::from_bits(rule).is_infinite() && finite(f) && finite(g);
        match self.mistake {
            Some(Mistake::DivfByZeroFaults) if by_zero => return Err(Trap::Farith),
            Some(Mistake::InvalidFaults) if invalid => return Err(Trap::Farith),
            Some(Mistake::OverflowFaultsF) if beyond => return Err(Trap::Farith),
            Some(Mistake::OverflowSaturates) if beyond && !by_zero => return Ok(rule - 1),
            Some(Mistake::InvalidNegative) if invalid => return Ok(NAN | SIGN),
            Some(Mistake::ResultToG) => {
                self.regs.g = rule;
                return Ok(f);
            }
            _ => {}
        }
        Ok(if rule == NAN { self.misread_nan(rule) } else { self.misrounded_result(arith, rule) })
    }

    /// What a NaN operand leaves of itself.
    fn misread_nan(&self, rule: u64) -> u64 {
        let (f, g) = (self.regs.f, self.regs.g);
        let Some(operand) = [f, g].into_iter().find(|x| is_nan(*x)) else { return rule };
        match self.mistake {
            Some(Mistake::NanAsItCame) => operand,
            Some(Mistake::NanQuiet) => operand | QUIET,
            Some(Mistake::NanSignKept) => rule | (operand & SIGN),
            _ => rule,
        }
    }

    fn misrounded_result(&self, arith: FloatArith, rule: u64) -> u64 {
        let (f, g) = (self.regs.f, self.regs.g);
        let zeroed = |x: u64| if is_subnormal(x) { x & SIGN } else { x };
        let single = |x: u64| f64::from_bits(x) as f32;
        match (self.mistake, arith) {
            (Some(Mistake::SubnormalsFlushed), _) => zeroed(rule),
            (Some(Mistake::SubnormalsZero), _) => double::arithmetic(arith, zeroed(f), zeroed(g)),
            (Some(Mistake::ArithmeticInSingle), _) => bits(f64::from(single(rule))),
            (Some(Mistake::ArithmeticTruncates), _) => truncated(arith, f, g, rule),
            (Some(Mistake::SubfReversed), FloatArith::Subf) => double::arithmetic(arith, g, f),
            (Some(Mistake::DivfReversed), FloatArith::Divf) => double::arithmetic(arith, g, f),
            (Some(Mistake::ZeroSumNegative), FloatArith::Addf | FloatArith::Subf) if rule == 0 => {
                SIGN
            }
            _ => rule,
        }
    }

    pub fn misrounded(&self, unary: Unary, rule: u64) -> u64 {
        let f = self.regs.f;
        let value = f64::from_bits(f);
        let flat = unary != Unary::Fabs;
        match self.mistake {
            Some(Mistake::UnaryNanKept(of)) if of == unary && is_nan(f) => f,
            Some(Mistake::FabsNanSignOnly) if !flat && is_nan(f) => f & !SIGN,
            Some(Mistake::FabsOfG) if !flat => self.regs.g & !SIGN,
            Some(Mistake::CeilPlusZero) if flat && rule == SIGN && f != SIGN => 0,
            Some(Mistake::FlatZeroPositive) if flat && f == SIGN => 0,
            Some(Mistake::FlorCuts) if unary == Unary::Flor => bits(value.trunc()),
            Some(Mistake::CeilCuts) if unary == Unary::Ceil => bits(value.trunc()),
            Some(Mistake::FlatRounds) if flat => bits(value.round_ties_even()),
            Some(Mistake::FlatByWord) if flat && rule != SIGN => {
                bits(f64::from(f64::from_bits(rule) as i32))
            }
            Some(Mistake::FlatByLong) if flat && rule != SIGN => {
                bits((f64::from_bits(rule) as i64) as f64)
            }
            _ => rule,
        }
    }
}

/// The result rounded toward zero: a step back where the rule went beyond.
fn truncated(arith: FloatArith, f: u64, g: u64, rule: u64) -> u64 {
    let (x, y, r) = (f64::from_bits(f), f64::from_bits(g), f64::from_bits(rule));
    let y = if arith == FloatArith::Subf { -y } else { y };
    // What the rule's result is too large by, or has its sign.
    let excess = match arith {
        FloatArith::Addf | FloatArith::Subf => {
            let of_y = r - x;
            -((x - (r - of_y)) + (y - of_y))
        }
        FloatArith::Mulf => -x.mul_add(y, -r),
        FloatArith::Divf => r.mul_add(y, -x) * y.signum(),
    };
    if r.is_finite() && excess != 0.0 && (excess > 0.0) == (r > 0.0) {
        smaller(rule)
    } else {
        rule
    }
}
