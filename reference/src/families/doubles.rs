//! Families of planted mistakes about doubles.

use super::{by_opcode, family, Family};
use crate::mistake::Mistake;
use crate::opcodes::decode::Op;
use crate::opcodes::floats::{Float, FloatCond, Precision, Unary};

/// Moves eight bytes with their bits.
fn moves_double(op: Op) -> bool {
    let Op::Float(float) = op else { return false };
    match float {
        Float::Load(_, _, precision) | Float::Store(_, precision) => precision == Precision::Double,
        Float::Push(_) | Float::Pop(_) | Float::Lbad => true,
        _ => false,
    }
}

/// Each comparison, and each branch.
const COMPARED: [(FloatCond, bool); 10] = {
    use FloatCond::*;
    [
        (Eq, false),
        (Ne, false),
        (Lt, false),
        (Ge, false),
        (Zero, true),
        (NotZero, true),
        (Eq, true),
        (Ne, true),
        (Lt, true),
        (Ge, true),
    ]
};

pub fn doubles() -> Vec<Family<Mistake>> {
    use Mistake::{CutFloors, CutIndefinite, CutNanZero, CutRounds, CutSaturates, CutWraps};
    use Mistake::{GefStrict, JudgedBeforeCut, MoveCanonical, MoveQuiet, UnaryNanKept};
    let by_kind = |mistake: fn(FloatCond, bool) -> Mistake| {
        COMPARED.into_iter().map(move |(cond, branch)| mistake(cond, branch))
    };
    let both = [false, true];
    vec![
        by_opcode("opcode [0] makes a NaN canonical", moves_double, MoveCanonical),
        by_opcode("opcode [0] makes a NaN quiet", moves_double, MoveQuiet),
        family("of a NaN [0] gives the opposite (branch: [1])", by_kind(Mistake::NanCompared)),
        family("-0 is less than 0 for [0] (branch: [1])", by_kind(Mistake::ZerosDiffer)),
        family("GEF is > (branch: [0])", both.map(GefStrict)),
        family(
            "[0] of a NaN gives it as it came",
            [Unary::Fabs, Unary::Flor, Unary::Ceil].map(UnaryNanKept),
        ),
        family("CDU or CDI ([0]) judges before it cuts", both.map(JudgedBeforeCut)),
        family("CDU or CDI ([0]) rounds down", both.map(CutFloors)),
        family("CDU or CDI ([0]) rounds to nearest", both.map(CutRounds)),
        family("CDU or CDI ([0]) wraps what doesn't fit", both.map(CutWraps)),
        family("CDU or CDI ([0]) gives the nearest that fits", both.map(CutSaturates)),
        family("CDU or CDI ([0]) of a NaN gives 0", both.map(CutNanZero)),
        family("CDU or CDI ([0]) gives 0x80000000 for FARITH", both.map(CutIndefinite)),
    ]
}
