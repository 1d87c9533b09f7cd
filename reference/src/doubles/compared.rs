//! Planted mistakes about comparisons and conversions.

use crate::double::{self, bits, is_nan, SIGN};
use crate::machine::Machine;
use crate::mistake::Mistake;
use crate::opcodes::floats::FloatCond;

/// A comparison of zeros by which -0 is less than 0.
fn by_sign(cond: FloatCond, left: u64, right: u64) -> bool {
    let less = left == SIGN && right == 0;
    match cond {
        FloatCond::Zero | FloatCond::Eq => left == right,
        FloatCond::NotZero | FloatCond::Ne => left != right,
        FloatCond::Lt => less,
        FloatCond::Ge => !less,
    }
}

impl Machine {
    pub fn miscompared(&self, cond: FloatCond, branch: bool, rule: bool) -> bool {
        let (f, g) = (self.regs.f, self.regs.g);
        let by_zero = matches!(cond, FloatCond::Zero | FloatCond::NotZero);
        let right = if by_zero { 0 } else { g };
        let nan = is_nan(f) || is_nan(right);
        let zeros = [f, right].map(|x| x & !SIGN) == [0; 2];
        let ordered = matches!(cond, FloatCond::Lt | FloatCond::Ge);
        match self.mistake {
            Some(Mistake::NanCompared(of, by)) if (of, by) == (cond, branch) && nan => !rule,
            Some(Mistake::ZerosDiffer(of, by)) if (of, by) == (cond, branch) && zeros => {
                by_sign(cond, f, right)
            }
            Some(Mistake::GefStrict(by)) if (cond, by) == (FloatCond::Ge, branch) => {
                rule && f64::from_bits(f) != f64::from_bits(g)
            }
            Some(Mistake::NegativesReversed) if ordered && f & g & SIGN != 0 && !nan => {
                double::holds(cond, f & !SIGN, g & !SIGN)
            }
            Some(Mistake::ZeroBranchesAskG) if by_zero => double::holds(cond, g, 0),
            _ => rule,
        }
    }

    pub fn miscut(&self, signed: bool, f: u64, rule: Option<u32>) -> Option<u32> {
        let value = f64::from_bits(f);
        let by = |of: bool| of == signed && !value.is_nan();
        let low = if signed { f64::from(i32::MIN) } else { 0.0 };
        let high = if signed { f64::from(i32::MAX) } else { f64::from(u32::MAX) };
        let cut = |x: f64| {
            if signed {
                double::cut_signed(bits(x))
            } else {
                double::cut_unsigned(bits(x))
            }
        };
        match self.mistake {
            Some(Mistake::JudgedBeforeCut(of)) if by(of) => {
                rule.filter(|_| value >= low && value <= high)
            }
            Some(Mistake::CutFloors(of)) if by(of) => cut(value.floor()),
            Some(Mistake::CutRounds(of)) if by(of) => cut(value.round_ties_even()),
            Some(Mistake::CutWraps(of)) if by(of) => Some(value as i64 as u32),
            Some(Mistake::CutSaturates(of)) if by(of) => cut(value.clamp(low, high)),
            Some(Mistake::CutNanZero(of)) if of == signed && is_nan(f) => Some(0),
            Some(Mistake::CutIndefinite(of)) if of == signed => rule.or(Some(0x8000_0000)),
            Some(Mistake::CduRefusesNegative) if !signed => rule.filter(|_| value >= 0.0),
            Some(Mistake::CdiTakesUnsigned) if signed => rule.or(double::cut_unsigned(f)),
            Some(Mistake::CduTakesSigned) if !signed => rule.or(double::cut_signed(f)),
            _ => rule,
        }
    }

    /// An integer made a double.
    pub fn misconverted(&self, rule: u64) -> u64 {
        let single = f64::from_bits(rule) as f32;
        self.pick(Mistake::ConvertedInSingle, bits(f64::from(single)), rule)
    }
}
