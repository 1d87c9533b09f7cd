//! What came of the marks of keys and timer, counted. Document 02, item 1.

use super::Due;
use crate::types::{Registers, Stop};
use std::fmt::Arguments;

const NAMES: [&str; 2] = ["key", "timer"];
const KINDS: [&str; 6] = [
    "set while masked",
    "set again",
    "cleared in a later step",
    "kept by a stop with 2",
    "kept by a stop with 3",
    "kept while waiting",
];

#[derive(Clone, Debug, Default)]
pub struct Marks {
    /// By mark and kind.
    each: [[u64; 6]; 2],
    /// Steps with iena = 1 in which both marks are set.
    both: u64,
}

impl Marks {
    /// A step, by the registers before and after it.
    pub fn step(&mut self, before: &Registers, after: &Registers) {
        let out = before.timeout != 0 && before.timer >= before.timeout;
        let events = [after.keys > before.keys, out];
        let stood = [before.key_pending, before.timer_pending];
        if events == [false; 2] && stood == [false; 2] {
            return; // as in most steps
        }
        let stands = [after.key_pending, after.timer_pending];
        for nth in 0..2 {
            let (event, stood, stands) = (events[nth], stood[nth], stands[nth]);
            let came = [
                event && !before.iena,
                event && stood,
                stood && !stands,
                stands && after.stop == Stop::Masked,
                stands && after.stop == Stop::NoFrame,
                stands && after.waiting,
            ];
            let counts = self.each[nth].iter_mut().zip(came);
            counts.for_each(|(count, came)| *count += u64::from(came));
        }
        let both = (0..2).all(|nth| events[nth] || stood[nth]);
        self.both += u64::from(both && before.iena);
    }

    pub fn add(&mut self, other: &Marks) {
        super::sum(self.each.as_flattened_mut(), other.each.as_flattened());
        self.both += other.both;
    }

    /// Visits every count with its name; all must come.
    pub fn visit(&self, visit: &mut impl FnMut(Arguments, u64, Due)) {
        for (name, counts) in NAMES.iter().zip(&self.each) {
            for (kind, count) in KINDS.iter().zip(counts) {
                visit(format_args!("{name} mark {kind}"), *count, Due::Always);
            }
        }
        visit(format_args!("both marks with iena = 1"), self.both, Due::Always);
    }
}
