//! Doubles: operations on every two of many values, and on each. A loop in the
//! machine goes over a table and leaves what comes in memory.

use super::{kernel, open, Named, HANDLER, PROGRAM};
use crate::case::Runs;
use crate::double::SIGN;
use crate::types::Registers;
use crate::words;
use crate::worked::op;

/// Patterns at the edges: zeros, ones, the smallest and largest subnormal, the
/// smallest and largest normal number, infinities and NaNs of both signs, quiet
/// and signalling; then numbers whose digits matter.
#[rustfmt::skip]
pub const SPECIAL: [u64; 28] = [
    0, SIGN,
    0x3ff0_0000_0000_0000, 0xbff0_0000_0000_0000,
    1, SIGN + 1,
    0x000f_ffff_ffff_ffff, 0x800f_ffff_ffff_ffff,
    0x0010_0000_0000_0000, 0x8010_0000_0000_0000,
    0x7fef_ffff_ffff_ffff, 0xffef_ffff_ffff_ffff,
    0x7ff0_0000_0000_0000, 0xfff0_0000_0000_0000,
    0x7ff8_0000_0000_0123, 0xfff8_0000_0000_0000,
    0x7ff0_0000_0000_0001, 0xfff4_5678_9abc_def0,
    0x3fb9_9999_9999_999a, // 0.1
    0x3fd5_5555_5555_5555, // 1/3
    0x4330_0000_0000_0000, // 2^52
    0x432f_ffff_ffff_ffff, // 2^52 - 0.5
    0x433f_ffff_ffff_ffff, // 2^53 - 1
    0x4340_0000_0000_0001, // 2^53 + 2
    0x41df_ffff_ffc0_0000, // 2^31 - 1
    0x41e0_0000_0020_0000, // 2^31 + 1
    0xc1e0_0000_001c_cccd, // -2^31 - 0.9
    0x41ef_ffff_fffc_cccd, // 2^32 - 0.1
];

pub const ARITHMETIC: [&str; 4] = ["ADDF", "SUBF", "MULF", "DIVF"];
pub const COMPARISONS: [&str; 4] = ["EQF", "NEF", "LTF", "GEF"];
pub const BRANCHES: [&str; 6] = ["BZF", "BNZF", "BEF", "BNEF", "BLTF", "BGEF"];

/// Where a loop has its table.
pub const TABLE: u32 = 0x1000;
/// Where it has the addresses of the item, the other item and the result, by sp.
const ITEM: i32 = 0;
const OTHER: i32 = 4;
const RESULT: i32 = 8;

/// Kernel mode, interrupts on, the mode with doubles.
pub fn ready() -> Registers {
    Registers { mode: true, ..open(kernel()) }
}

/// f and g.
pub fn with_fg(f: f64, g: f64) -> Registers {
    Registers { f: f.to_bits(), g: g.to_bits(), ..ready() }
}

/// A table of patterns, each of so many bytes.
pub struct Table {
    pub size: u32,
    pub items: Vec<u64>,
}

impl Table {
    pub fn doubles(items: &[u64]) -> Table {
        Table { size: 8, items: items.to_vec() }
    }

    pub fn words(items: &[u32]) -> Table {
        Table { size: 4, items: items.iter().map(|word| u64::from(*word)).collect() }
    }

    pub fn end(&self) -> u32 {
        TABLE + self.size * self.items.len() as u32
    }

    /// Where the results begin.
    pub fn results(&self) -> u32 {
        self.end().next_multiple_of(0x100)
    }

    /// `body` for each item, or for every two; it leaves `width` bytes.
    pub fn each(&self, pairs: bool, width: u32, body: &[u32]) -> Runs {
        let step = |at: i32, by: u32| [op("LL", at), op("ADDI", by as i32), op("SL", at)];
        let mut program = Vec::new();
        if pairs {
            program.extend([op("LI", TABLE as i32), op("SL", OTHER)]);
        }
        let inner = program.len();
        program.extend_from_slice(body);
        program.extend(step(RESULT, width));
        program.push(op("LBI", self.end() as i32));
        let back = |program: &[u32], to: usize| 4 * (to as i32 - program.len() as i32 - 1);
        if pairs {
            program.extend(step(OTHER, self.size));
            program.push(op("BNE", back(&program, inner)));
        }
        program.extend(step(ITEM, self.size));
        program.push(op("BNE", back(&program, 0)));
        program.push(op("HALT", 0));
        let count = self.items.len() as u32;
        let rows = if pairs { count * count } else { count };
        let length = (self.results() + rows * width).next_multiple_of(0x1000);
        let mut runs = Runs::new(length as usize, ready())
            .words(PROGRAM, &program)
            .words(HANDLER, &[op("RTI", 0)])
            .words(ready().sp, &[TABLE, TABLE, self.results()]);
        for (nth, item) in self.items.iter().enumerate() {
            words::put_double(&mut runs.memory, TABLE + self.size * nth as u32, self.size, *item);
        }
        runs.run(1_000_000)
    }
}

/// f from the item, and g from the other.
pub const LOAD_F: [(&str, i32); 2] = [("LL", ITEM), ("LXD", 0)];
pub const LOAD_G: [(&str, i32); 2] = [("LBL", OTHER), ("LBXD", 0)];

pub fn code(list: &[(&str, i32)]) -> Vec<u32> {
    list.iter().map(|(name, imm)| op(name, *imm)).collect()
}

/// The operations on f and g, each followed by a store.
pub fn arithmetic(values: &[u64]) -> Runs {
    let mut body = code(&LOAD_G);
    for (nth, name) in (0..).zip(ARITHMETIC) {
        body.extend(code(&LOAD_F));
        body.extend(code(&[(name, 0), ("LBL", RESULT), ("SXD", 8 * nth)]));
    }
    Table::doubles(values).each(true, 32, &body)
}

/// A byte of 0 or 1 for each comparison, then for each branch.
pub fn comparisons(values: &[u64]) -> Runs {
    let mut body = [code(&LOAD_F), code(&LOAD_G)].concat();
    for (nth, name) in (0..).zip(COMPARISONS) {
        body.extend(code(&[(name, 0), ("LBL", RESULT), ("SXB", nth)]));
    }
    for (nth, name) in (4..).zip(BRANCHES) {
        let taken = [("LI", 1), (name, 4), ("LI", 0)];
        body.extend(code(&taken));
        body.extend(code(&[("LBL", RESULT), ("SXB", nth)]));
    }
    Table::doubles(values).each(true, 10, &body)
}

/// Patterns with exponents about `field`, all digits at random.
pub fn scattered(count: usize, field: u64, spread: u64) -> Vec<u64> {
    let mut state = field;
    let mut next = || {
        state = state.wrapping_mul(0x5851_f42d_4c95_7f2d).wrapping_add(0x1405_7b7e_f767_814f);
        state ^ (state >> 29)
    };
    let pattern = |bits: u64, other: u64| {
        (bits & SIGN) | ((field + (other >> 33) % spread) << 52) | ((bits << 1) >> 12)
    };
    (0..count).map(|_| pattern(next(), next())).collect()
}

pub fn cases() -> Vec<Named> {
    let named = |name: &str, runs: Runs| (name.to_string(), runs.into());
    vec![
        named("doubles: arithmetic on every two", arithmetic(&SPECIAL)),
        named("doubles: comparisons of every two", comparisons(&SPECIAL)),
        named("doubles: arithmetic on digits", arithmetic(&scattered(20, 1010, 28))),
        named("doubles: arithmetic about the smallest", arithmetic(&scattered(16, 490, 45))),
        named("doubles: arithmetic about the largest", arithmetic(&scattered(12, 1520, 30))),
        named("doubles: comparisons of digits", comparisons(&scattered(10, 1022, 3))),
    ]
}
