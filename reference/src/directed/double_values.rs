//! Doubles: what is made of one value. FABS, FLOR, CEIL, narrowing, widening and
//! conversions over tables.

use super::doubles::{code, Table, LOAD_F, SPECIAL};
use super::Named;
use crate::case::Runs;

/// What CDI and CDU leave in a row where they fault.
pub const FAULTED: i32 = 77;
/// Bytes of a row of `values`: FABS, FLOR, CEIL, a single, CDI, CDU.
pub const ROW: u32 = 40;

/// Numbers about the edges of FLOR, CEIL, CDI and CDU.
#[rustfmt::skip]
pub const NUMBERS: [f64; 46] = [
    0.5, -0.5, 0.9, -0.9, 1.5, -1.5, 2.5, -2.5, -1.0000000000000002, -0.9999999999999999,
    0.9999999999999999, 0.49999999999999994, 1e-300, -1e-300,
    2147483647.0, 2147483647.5, 2147483647.9999998, 2147483648.0, -2147483648.0,
    -2147483648.5, -2147483648.9999995, -2147483649.0, -2147483649.5,
    4294967295.0, 4294967295.5, 4294967295.9999995, 4294967296.0, 4294967297.0, -4294967297.0,
    -1.9, 4503599627370495.5, -4503599627370495.5, 4503599627370497.0, -4503599627370497.0,
    2251799813685248.5, -2251799813685248.5, 2251799813685247.8, 9007199254740993.0,
    9.223372036854776e18, -9.223372036854776e18, 1.8446744073709552e19, 1e20, -1e20,
    1e300, -1e300, 65536.75,
];

/// FABS, FLOR, CEIL, narrowing, CDI and CDU of each.
pub fn values(values: &[u64]) -> Runs {
    let mut body = Vec::new();
    for (nth, name) in (0..).zip(["FABS", "FLOR", "CEIL"]) {
        body.extend(code(&LOAD_F));
        body.extend(code(&[(name, 0), ("LBL", 8), ("SXD", 8 * nth)]));
    }
    body.extend(code(&LOAD_F));
    body.extend(code(&[("LBL", 8), ("SXF", 24)]));
    for (nth, name) in (0..).zip(["CDI", "CDU"]) {
        body.extend(code(&[("LI", FAULTED), (name, 0), ("LBL", 8), ("SX", 28 + 4 * nth)]));
    }
    Table::doubles(values).each(false, ROW, &body)
}

/// For each exponent from below the smallest single to beyond the largest: two
/// ties, to even and to odd, and what lies beside them. Signs alternate.
pub fn about_singles() -> Vec<u64> {
    let mut list = Vec::new();
    for field in 870..=1151u64 {
        let drop = if field >= 897 { 29 } else { 926 - field };
        let hidden = 1u64 << 52;
        // The digits without the hidden one, of which `drop` are dropped.
        let half = if drop > 53 { hidden } else { 1 << (drop - 1) };
        let tie = half % hidden;
        let odd = if drop < 52 { tie | 1 << drop | 5 << 50 } else { tie };
        let low = (tie.wrapping_sub(1)) % hidden;
        let patterns = [tie, odd % hidden, tie + 1, low];
        list.extend(patterns.map(|digits| (field % 2) << 63 | field << 52 | digits));
    }
    list
}

/// Each narrowed.
pub fn narrowed(values: &[u64]) -> Runs {
    let body = [code(&LOAD_F), code(&[("LBL", 8), ("SXF", 0)])].concat();
    Table::doubles(values).each(false, 4, &body)
}

/// Zeros, subnormals, normal numbers, infinities and NaNs of both signs.
#[rustfmt::skip]
pub const SINGLES: [u32; 24] = [
    0, 0x8000_0000, 1, 0x8000_0001, 0x007f_ffff, 0x807f_ffff, 0x0000_0100, 0x0040_0000,
    0x0080_0000, 0x8080_0000, 0x7f7f_ffff, 0xff7f_ffff, 0x7f80_0000, 0xff80_0000,
    0x7fc0_0000, 0xffc0_0000, 0x7fc1_2345, 0x7f80_0001, 0xffbf_ffff, 0xffff_ffff,
    0x3f80_0000, 0x3dcc_cccd, 0xc2f6_e979, 0x4b7f_ffff,
];

/// Each widened to f and to g, by loads at a and b.
pub fn widened() -> Runs {
    let to_f = [("LL", 0), ("LXF", 0), ("LBL", 8), ("SXD", 0)];
    let to_g = [("LBL", 0), ("LBXF", 0), ("PSHG", 0), ("POPF", 0), ("LBL", 8), ("SXD", 8)];
    Table::words(&SINGLES).each(false, 16, &[code(&to_f), code(&to_g)].concat())
}

pub const INTEGERS: [u32; 12] = [
    0,
    1,
    -1i32 as u32,
    0x7fff_ffff,
    0x8000_0000,
    0x8000_0001,
    0x00ff_ffff,
    0x0100_0001,
    0xff00_0001,
    0x1234_5679,
    0xfedc_ba97,
    0x0200_0003,
];

/// CID and CUD of each.
pub fn converted() -> Runs {
    let body = [("LL", 0), ("LX", 0), ("CID", 0), ("LBL", 8), ("SXD", 0), ("CUD", 0), ("SXD", 8)];
    Table::words(&INTEGERS).each(false, 16, &code(&body))
}

pub fn cases() -> Vec<Named> {
    let named = |name: &str, runs: Runs| (name.to_string(), runs.into());
    vec![
        named("doubles: each special value", values(&SPECIAL)),
        named("doubles: numbers at edges", values(&NUMBERS.map(f64::to_bits))),
        named("doubles: narrowed at each exponent", narrowed(&about_singles())),
        named("doubles: singles widened", widened()),
        named("doubles: integers converted", converted()),
    ]
}
