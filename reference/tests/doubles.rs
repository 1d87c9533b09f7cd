//! Doubles by results worked out by hand. Document 02, item 7.

use reference::double::{self, NAN};
use reference::doubles::narrowing::{narrow, Rounding};
use reference::opcodes::floats::FloatArith::{self, Addf, Divf, Mulf, Subf};
use reference::opcodes::floats::FloatCond::{Eq, Ge, Lt, Ne, NotZero, Zero};
use reference::opcodes::floats::Unary::{Ceil, Fabs, Flor};

const SIGNALLING: u64 = 0xfff4_5678_9abc_def0;
const INFINITY: u64 = 0x7ff0_0000_0000_0000;
const MINUS_INFINITY: u64 = 0xfff0_0000_0000_0000;
const MINUS_ZERO: u64 = 0x8000_0000_0000_0000;
const ONE: u64 = 0x3ff0_0000_0000_0000;
const MOST: u64 = 0x7fef_ffff_ffff_ffff;
/// The smallest normal number.
const LEAST: u64 = 0x0010_0000_0000_0000;

#[test]
fn arithmetic() {
    let rows: [(FloatArith, u64, u64, u64); 21] = [
        // 0.1 + 0.2 is 0.30000000000000004.
        (Addf, 0x3fb9_9999_9999_999a, 0x3fc9_9999_9999_999a, 0x3fd3_3333_3333_3334),
        // 1 + 2^-53 is a tie, to even; with a digit more it is not.
        (Addf, ONE, 0x3ca0_0000_0000_0000, ONE),
        (Addf, ONE, 0x3ca0_0000_0000_0001, ONE + 1),
        (Addf, ONE + 1, 0x3ca0_0000_0000_0000, ONE + 2),
        (Subf, ONE, ONE, 0),
        (Addf, MINUS_ZERO, MINUS_ZERO, MINUS_ZERO),
        (Subf, INFINITY, INFINITY, NAN),
        (Addf, MOST, MOST, INFINITY),
        // 2^-1022 - 2^-1074.
        (Subf, LEAST, 1, 0x000f_ffff_ffff_ffff),
        (Mulf, LEAST, 0x3fe0_0000_0000_0000, 0x0008_0000_0000_0000),
        // Half of the smallest is a tie, to even; three quarters are not.
        (Mulf, 1, 0x3fe0_0000_0000_0000, 0),
        (Mulf, 1, 0xbfe8_0000_0000_0000, MINUS_ZERO + 1),
        (Mulf, 0, MINUS_INFINITY, NAN),
        (Divf, ONE, 0, INFINITY),
        (Divf, ONE, MINUS_ZERO, MINUS_INFINITY),
        (Divf, 0, 0, NAN),
        // 1/3: the digits repeat 01.
        (Divf, ONE, 0x4008_0000_0000_0000, 0x3fd5_5555_5555_5555),
        (Divf, MINUS_INFINITY, INFINITY, NAN),
        (Addf, 0xfff8_0000_0000_0001, ONE, NAN),
        (Divf, ONE, 0x7ff0_0000_0000_0001, NAN),
        (Mulf, 0xffff_ffff_ffff_ffff, 0xfff0_0000_0000_0001, NAN),
    ];
    for (arith, f, g, result) in rows {
        let found = double::arithmetic(arith, f, g);
        assert_eq!(found, result, "{arith:?} {f:#x} {g:#x}: {found:#x}");
    }
}

#[test]
fn comparisons() {
    let nans = [(NAN, ONE), (ONE, 0xfff8_0000_0000_0000), (SIGNALLING, SIGNALLING)];
    for (f, g) in nans {
        let found = [Eq, Ne, Lt, Ge].map(|cond| double::holds(cond, f, g));
        assert_eq!(found, [false, true, false, false]);
    }
    assert_eq!([Zero, NotZero].map(|cond| double::holds(cond, SIGNALLING, 0)), [false, true]);
    let rows = [
        (MINUS_ZERO, 0, [true, false, false, true]),
        (ONE, ONE, [true, false, false, true]),
        (ONE, ONE + 1, [false, true, true, false]),
        (0xbff0_0000_0000_0001, 0xbff0_0000_0000_0000, [false, true, true, false]),
        (MINUS_INFINITY, INFINITY, [false, true, true, false]),
        (1, MINUS_ZERO + 1, [false, true, false, true]),
    ];
    for (f, g, expected) in rows {
        assert_eq!([Eq, Ne, Lt, Ge].map(|cond| double::holds(cond, f, g)), expected, "{f:#x}");
    }
    assert_eq!([Zero, NotZero].map(|cond| double::holds(cond, MINUS_ZERO, ONE)), [true, false]);
    assert_eq!([Zero, NotZero].map(|cond| double::holds(cond, 1, 0)), [false, true]);
}

#[test]
fn absolute_floor_and_ceiling() {
    let half = 0x3fe0_0000_0000_0000;
    let minus_half = half | MINUS_ZERO;
    let minus_one = ONE | MINUS_ZERO;
    let rows = [
        (half, half, 0, ONE),
        (minus_half, half, minus_one, MINUS_ZERO),
        (MINUS_ZERO, 0, MINUS_ZERO, MINUS_ZERO),
        (MINUS_ZERO + 1, 1, minus_one, MINUS_ZERO),
        (MINUS_INFINITY, INFINITY, MINUS_INFINITY, MINUS_INFINITY),
        (SIGNALLING, NAN, NAN, NAN),
        (0xfff8_0000_0000_0000, NAN, NAN, NAN),
        // 2^52 - 0.5.
        (
            0x432f_ffff_ffff_ffff,
            0x432f_ffff_ffff_ffff,
            0x432f_ffff_ffff_fffe,
            0x4330_0000_0000_0000,
        ),
        (
            0x4340_0000_0000_0001,
            0x4340_0000_0000_0001,
            0x4340_0000_0000_0001,
            0x4340_0000_0000_0001,
        ),
    ];
    for (x, absolute, floor, ceiling) in rows {
        let found = [Fabs, Flor, Ceil].map(|unary| double::unary(unary, x));
        assert_eq!(found, [absolute, floor, ceiling], "{x:#x}");
    }
}

/// 1 + 2^-24 and 1 + 3 * 2^-24 lie in the middle between two singles.
#[test]
fn narrowing() {
    let rows = [
        (0x3ff0_0000_1000_0000, 0x3f80_0000),
        (0x3ff0_0000_3000_0000, 0x3f80_0002),
        (0x3ff0_0000_1000_0001, 0x3f80_0001),
        (0x3ff0_0000_0fff_ffff, 0x3f80_0000),
        (0xbff0_0000_3000_0000, 0xbf80_0002),
        // The largest single, the last that is no infinity, and the tie above.
        (0x47ef_ffff_e000_0000, 0x7f7f_ffff),
        (0x47ef_ffff_efff_ffff, 0x7f7f_ffff),
        (0x47ef_ffff_f000_0000, 0x7f80_0000),
        (MOST | MINUS_ZERO, 0xff80_0000),
        (MINUS_INFINITY, 0xff80_0000),
        // 2^-149, its half, which is a tie to zero, and what is above that.
        (0x36a0_0000_0000_0000, 1),
        (0x3690_0000_0000_0000, 0),
        (0x3690_0000_0000_0001, 1),
        (0xb690_0000_0000_0000, 0x8000_0000),
        // Three halves of 2^-149: a tie to 2.
        (0x36a8_0000_0000_0000, 2),
        // The largest that rounds to a subnormal, and the smallest normal single.
        (0x380f_ffff_dfff_ffff, 0x007f_ffff),
        (0x380f_ffff_e000_0000, 0x0080_0000),
        (1, 0),
        (SIGNALLING, 0x7fc0_0000),
        (0xffff_ffff_ffff_ffff, 0x7fc0_0000),
    ];
    for (x, single) in rows {
        assert_eq!(double::narrowed(x), single, "{x:#x}: {:#x}", double::narrowed(x));
    }
}

#[test]
fn widening() {
    let rows = [
        (0x3f80_0000, ONE),
        (1, 0x36a0_0000_0000_0000),
        (0x807f_ffff, 0xb80f_ffff_c000_0000),
        (0x7f7f_ffff, 0x47ef_ffff_e000_0000),
        (0xff80_0000, MINUS_INFINITY),
        (0x8000_0000, MINUS_ZERO),
        (0x7f80_0001, NAN),
        (0xffc1_2345, NAN),
    ];
    for (single, wide) in rows {
        assert_eq!(double::widened(single), wide, "{single:#x}");
    }
}

#[test]
fn conversions() {
    let signed = [
        (-2147483648.9, Some(0x8000_0000)),
        (-2147483649.0, None),
        (2147483647.9, Some(0x7fff_ffff)),
        (2147483648.0, None),
        (-1.9, Some(0xffff_ffff)),
        (-0.0, Some(0)),
        (7.99, Some(7)),
        (f64::NAN, None),
        (f64::NEG_INFINITY, None),
    ];
    for (value, expected) in signed {
        assert_eq!(double::cut_signed(value.to_bits()), expected, "{value}");
    }
    let unsigned = [
        (-0.9, Some(0)),
        (-1.0, None),
        (4294967295.9, Some(0xffff_ffff)),
        (4294967296.0, None),
        (2147483648.0, Some(0x8000_0000)),
        (f64::NAN, None),
        (f64::INFINITY, None),
    ];
    for (value, expected) in unsigned {
        assert_eq!(double::cut_unsigned(value.to_bits()), expected, "{value}");
    }
    assert_eq!(double::of_signed(0x8000_0000), 0xc1e0_0000_0000_0000);
    assert_eq!(double::of_unsigned(0x8000_0000), 0x41e0_0000_0000_0000);
    assert_eq!(double::of_unsigned(0xffff_ffff), 0x41ef_ffff_ffe0_0000);
}

/// Narrowing a second time, in integers, about every exponent.
#[test]
fn narrowing_in_integers() {
    let mut state = 7u64;
    for field in (0..2047u64).chain(865..=1155).chain(865..=1155) {
        for _ in 0..40 {
            state = state.wrapping_mul(0x5851_f42d_4c95_7f2d).wrapping_add(0x1405_7b7e_f767_814f);
            let digits = state >> 12;
            let drop = if field >= 897 { 29 } else { (926 - field.max(1)).min(52) };
            let tie = digits >> (drop - 1) << (drop - 1);
            for digits in [digits, tie, tie + 1, tie.saturating_sub(1)] {
                let x = (state & MINUS_ZERO) | field << 52 | (digits & ((1 << 52) - 1));
                let sign = (x >> 32) as u32 & 0x8000_0000;
                assert_eq!(double::narrowed(x), sign | narrow(x, Rounding::Even), "{x:#x}");
            }
        }
    }
}
