//! Signed division: quotient and remainder of every two of a few words of both
//! signs, by 0 too.

use super::tables::{on_b, table};
use super::{bare, kernel, open, Named};
use crate::types::Registers;
use crate::worked::op;

pub const SIGNED_DIVISION: [&str; 2] = ["DIV", "MOD"];
/// The dividends, and but for 0 the divisors: the last three are -2^31, -7 and
/// -1.
pub const SIGNED: [u32; 8] = [0, 1, 2, 7, 0x7fff_ffff, 0x8000_0000, -7i32 as u32, -1i32 as u32];

/// A table for each operation, and a fault for each dividend.
pub fn cases() -> Vec<Named> {
    let pairs = SIGNED.iter().flat_map(|a| SIGNED[1..].iter().map(|b| (*a, *b)));
    let pairs: Vec<(u32, u32)> = pairs.collect();
    let mut cases = Vec::new();
    for name in SIGNED_DIVISION {
        cases.push((
            format!("{name} of every two signed words"),
            table(&[name], &pairs, on_b).into(),
        ));
        for a in SIGNED {
            let runs = bare(open(Registers { a, b: 0, ..kernel() }), &[op(name, 0)]);
            cases.push((format!("{name} of {a:#x} by 0"), runs.run(1).into()));
        }
    }
    cases
}
