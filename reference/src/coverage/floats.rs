//! What came of doubles, counted. Document 02, item 7.

use super::Due;
use crate::double::{is_nan, SIGN, SINGLE_NAN};
use crate::opcodes::floats::{FloatArith, Unary};
use std::fmt::Arguments;

const ARITH: [&str; 4] = ["ADDF", "SUBF", "MULF", "DIVF"];
const RESULTS: [&str; 4] =
    ["NaN of a NaN", "NaN of numbers", "infinity of finite numbers", "a subnormal"];
const UNARY: [&str; 3] = ["FABS", "FLOR", "CEIL"];
const ROUNDED: [&str; 4] = ["of a NaN", "of -0", "of an infinity", "another number"];
const WIDENED: [&str; 3] = ["a NaN", "a subnormal", "a number"];
const NARROWED: [&str; 8] = [
    "a NaN",
    "exactly",
    "a tie, down",
    "a tie, up",
    "no tie",
    "to infinity",
    "to a subnormal",
    "to zero",
];
const COMPARED: [&str; 3] = ["a NaN", "zeros of both signs", "equal numbers"];
const CONVERSIONS: [&str; 2] = ["CDU", "CDI"];
const CUT: [&str; 4] = ["of a NaN refused", "out of range refused", "cuts a fraction", "exact"];
const MOVES: [&str; 2] = ["read", "write"];
const DELIVERED: [&str; 2] = ["fault", "interrupt"];

#[derive(Clone, Debug, Default)]
pub struct Floats {
    results: [[u64; 4]; 4],
    rounded: [[u64; 4]; 3],
    widened: [u64; 3],
    narrowed: [u64; 8],
    compared: [u64; 3],
    /// By whether it is CDI.
    cut: [[u64; 4]; 2],
    /// Eight-byte accesses, by whether they write and the address's low bits.
    reached: [[u64; 8]; 2],
    /// Traps delivered in the mode with doubles, f or g not being 0.
    delivered: [u64; 2],
}

/// Adds to each count what came.
fn count<const N: usize>(counts: &mut [u64; N], came: [bool; N]) {
    counts.iter_mut().zip(came).for_each(|(count, came)| *count += u64::from(came));
}

/// Whether a double lies in the middle between two neighbouring singles: one
/// step to either side rounds to another. Which it was rounded to is told apart.
fn tie(x: u64, single: u32) -> Option<bool> {
    let near = |x: u64| (f64::from_bits(x) as f32).to_bits();
    let down = x & !SIGN != 0 && near(x - 1) != near(x + 1);
    let exact = f64::from(f32::from_bits(single)).to_bits() == x;
    (down && !exact).then(|| f64::from(f32::from_bits(single)).abs() > f64::from_bits(x).abs())
}

/// Counting.
impl Floats {
    pub fn calculated(&mut self, arith: FloatArith, f: u64, g: u64, result: u64) {
        let operand = is_nan(f) || is_nan(g);
        let finite = [f, g].iter().all(|x| f64::from_bits(*x).is_finite());
        let value = f64::from_bits(result);
        let came = [
            operand,
            value.is_nan() && !operand,
            value.is_infinite() && finite,
            value.is_subnormal(),
        ];
        count(&mut self.results[arith as usize], came);
    }

    pub fn rounded(&mut self, unary: Unary, f: u64, result: u64) {
        let value = f64::from_bits(f);
        let came = [value.is_nan(), f == SIGN, value.is_infinite(), !value.is_nan() && result != f];
        count(&mut self.rounded[unary as usize], came);
    }

    pub fn widened(&mut self, single: u32, _: u64) {
        let value = f32::from_bits(single);
        count(&mut self.widened, [value.is_nan(), value.is_subnormal(), value.is_normal()]);
    }

    pub fn narrowed(&mut self, x: u64, single: u32) {
        let (value, narrow) = (f64::from_bits(x), f32::from_bits(single));
        let exact = f64::from(narrow).to_bits() == x;
        let tie = if single == SINGLE_NAN { None } else { tie(x, single) };
        let came = [
            value.is_nan(),
            exact,
            tie == Some(false),
            tie == Some(true),
            tie.is_none() && !exact && !value.is_nan(),
            narrow.is_infinite() && value.is_finite(),
            narrow.is_subnormal(),
            narrow == 0.0 && value != 0.0,
        ];
        count(&mut self.narrowed, came);
    }

    pub fn compared(&mut self, f: u64, g: u64) {
        let zeros = f ^ g == SIGN && f & !SIGN == 0;
        count(&mut self.compared, [is_nan(f) || is_nan(g), zeros, f == g && !is_nan(f)]);
    }

    pub fn cut(&mut self, signed: bool, f: u64, answer: Option<u32>) {
        let exact = f64::from_bits(f).trunc().to_bits() == f;
        let came = [
            is_nan(f),
            answer.is_none() && !is_nan(f),
            answer.is_some() && !exact,
            answer.is_some() && exact,
        ];
        count(&mut self.cut[usize::from(signed)], came);
    }

    pub fn reached(&mut self, address: u32, write: bool) {
        self.reached[usize::from(write)][address as usize % 8] += 1;
    }

    pub fn delivered(&mut self, interrupt: bool) {
        self.delivered[usize::from(interrupt)] += 1;
    }

    pub fn add(&mut self, other: &Floats) {
        super::sum(self.results.as_flattened_mut(), other.results.as_flattened());
        super::sum(self.rounded.as_flattened_mut(), other.rounded.as_flattened());
        super::sum(&mut self.widened, &other.widened);
        super::sum(&mut self.narrowed, &other.narrowed);
        super::sum(&mut self.compared, &other.compared);
        super::sum(self.cut.as_flattened_mut(), other.cut.as_flattened());
        super::sum(self.reached.as_flattened_mut(), other.reached.as_flattened());
        super::sum(&mut self.delivered, &other.delivered);
    }
}

/// Telling.
impl Floats {
    /// Visits every count with its name; all must come.
    pub fn visit(&self, visit: &mut impl FnMut(Arguments, u64, Due)) {
        for (name, counts) in ARITH.iter().zip(self.results) {
            for (kind, count) in RESULTS.iter().zip(counts) {
                visit(format_args!("doubles: {name} gives {kind}"), count, Due::Always);
            }
        }
        for (name, counts) in UNARY.iter().zip(self.rounded) {
            for (kind, count) in ROUNDED.iter().zip(counts) {
                visit(format_args!("doubles: {name} {kind}"), count, Due::Always);
            }
        }
        for (name, counts) in CONVERSIONS.iter().zip(self.cut) {
            for (kind, count) in CUT.iter().zip(counts) {
                visit(format_args!("doubles: {name} {kind}"), count, Due::Always);
            }
        }
        let lists = [("widened", &WIDENED[..], &self.widened[..])];
        let lists = lists.into_iter().chain([
            ("narrowed", &NARROWED[..], &self.narrowed[..]),
            ("compared", &COMPARED[..], &self.compared[..]),
            ("delivered:", &DELIVERED[..], &self.delivered[..]),
        ]);
        for (name, kinds, counts) in lists {
            for (kind, count) in kinds.iter().zip(counts) {
                visit(format_args!("doubles: {name} {kind}"), *count, Due::Always);
            }
        }
        for (name, counts) in MOVES.iter().zip(self.reached) {
            for (bits, count) in counts.iter().enumerate() {
                visit(format_args!("doubles: {name} at {bits} modulo 8"), *count, Due::Always);
            }
        }
    }
}
