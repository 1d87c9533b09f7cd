//! The record's numbers in the order of FORMAT.md, in a case, in a line and in
//! document 02's file of a saved machine alike. A further field of `Registers`
//! gets its place in this list.

use crate::types::{Cause, Registers, Stop};

/// Keys taken and console bytes written stand apart, since they belong to what
/// is lent; so does the page buffer.
macro_rules! numbers {
    ($($name:ident,)*) => {
        pub const NAMES: &[&str] = &[$(stringify!($name),)*];

        pub fn numbers(regs: &Registers) -> Vec<u64> {
            vec![$(regs.$name.number(),)*]
        }

        /// The bytes that each takes in the file of a saved machine: "64 bits
        /// take eight bytes, all else a word".
        pub fn widths() -> Vec<usize> {
            let regs = Registers::default();
            vec![$(regs.$name.width(),)*]
        }

        /// `None` where there are not as many, or one is too large for its field.
        pub fn registers(numbers: &[u64]) -> Option<Registers> {
            let mut rest = numbers.iter();
            let regs = Registers {
                $($name: Field::field(*rest.next()?)?,)*
                ..Registers::default()
            };
            rest.next().is_none().then_some(regs)
        }
    };
}

numbers! {
    a, b, c, sp, usp, ksp, pc, ivec, pdir, vadr, timer, timeout, kbchar,
    user, iena, paging, waiting, key_pending, timer_pending, stop, cause, count,
    mode, f, g,
}

/// A field as a number, and back.
trait Field: Sized {
    fn number(&self) -> u64;
    fn field(number: u64) -> Option<Self>;

    fn width(&self) -> usize {
        4
    }
}

impl Field for u32 {
    fn number(&self) -> u64 {
        u64::from(*self)
    }
    fn field(number: u64) -> Option<u32> {
        number.try_into().ok()
    }
}

impl Field for u64 {
    fn number(&self) -> u64 {
        *self
    }
    fn field(number: u64) -> Option<u64> {
        Some(number)
    }
    fn width(&self) -> usize {
        8
    }
}

impl Field for bool {
    fn number(&self) -> u64 {
        u64::from(*self)
    }
    fn field(number: u64) -> Option<bool> {
        [false, true].get(usize::try_from(number).ok()?).copied()
    }
}

impl Field for Stop {
    fn number(&self) -> u64 {
        *self as u64
    }
    fn field(number: u64) -> Option<Stop> {
        Stop::ALL.get(usize::try_from(number).ok()?).copied()
    }
}

impl Field for Cause {
    fn number(&self) -> u64 {
        *self as u64
    }
    fn field(number: u64) -> Option<Cause> {
        Cause::ALL.get(usize::try_from(number).ok()?).copied()
    }
}
