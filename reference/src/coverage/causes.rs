//! What came of the causes, counted. Document 02, item 4.

use super::{Due, ACCESSES, MODES};
use crate::types::{Access, Cause, Registers, Stop, Trap};
use std::fmt::Arguments;

/// By number.
const NAMES: [&str; 8] = [
    "none",
    "address beyond memory",
    "directory absent",
    "directory beyond memory",
    "table absent",
    "no user right",
    "no write right",
    "frame beyond memory",
];
/// How a step with a trap ends.
const ENDS: [&str; 3] = ["delivered", "stopped with 2", "stopped with 3"];
/// The traps that have no cause.
const OTHERS: [Trap; 6] =
    [Trap::Ftimer, Trap::Fkeybd, Trap::Fpriv, Trap::Finst, Trap::Fsys, Trap::Farith];

#[derive(Clone, Debug, Default)]
pub struct Causes {
    /// Refused accesses, by cause, access and mode.
    refused: [[[u64; 2]; 3]; 8],
    /// Refused by PDIR itself.
    refused_pdir: u64,
    /// Steps with a cause, by cause and end.
    ends: [[u64; 3]; 8],
    /// Traps without a cause, the record having one, by code and end.
    kept: [[u64; 3]; 10],
    /// Causes that replaced another.
    replaced: u64,
    /// The step's cause and trap, so far.
    cause: Option<Cause>,
    trap: Option<Trap>,
}

impl Causes {
    pub fn refused(&mut self, cause: Cause, access: Access, user: bool) {
        self.refused[cause as usize][access as usize][usize::from(user)] += 1;
        self.cause = Some(cause);
    }

    pub fn refused_pdir(&mut self) {
        self.refused_pdir += 1;
        self.cause = Some(Cause::AddressBeyond);
    }

    /// A trap, before its delivery or stop.
    pub fn raised(&mut self, trap: Trap) {
        self.trap = Some(trap);
    }

    /// A step, by the registers before and after it.
    pub fn step(&mut self, before: &Registers, after: &Registers) {
        let (cause, trap) = (self.cause.take(), self.trap.take());
        let end = match after.stop {
            Stop::Masked => 1,
            Stop::NoFrame => 2,
            _ => 0,
        };
        if let Some(cause) = cause {
            self.ends[cause as usize][end] += 1;
            self.replaced += u64::from(before.cause != Cause::None && before.cause != cause);
        } else if let Some(trap) = trap.filter(|_| before.cause != Cause::None) {
            self.kept[trap as usize][end] += 1;
        }
    }

    /// Whether something was refused for it.
    pub fn came(&self, cause: Cause) -> bool {
        self.ends[cause as usize].iter().any(|count| *count > 0)
    }

    pub fn add(&mut self, other: &Causes) {
        let (mine, theirs) = (self.refused.as_flattened_mut(), other.refused.as_flattened());
        super::sum(mine.as_flattened_mut(), theirs.as_flattened());
        self.refused_pdir += other.refused_pdir;
        super::sum(self.ends.as_flattened_mut(), other.ends.as_flattened());
        super::sum(self.kept.as_flattened_mut(), other.kept.as_flattened());
        self.replaced += other.replaced;
    }

    /// Visits every count that can come with its name; all must.
    pub fn visit(&self, visit: &mut impl FnMut(Arguments, u64, Due)) {
        for (cause, name) in Cause::ALL.iter().zip(NAMES).skip(1) {
            self.visit_accesses(*cause, name, visit);
            for (end, count) in ENDS.iter().zip(self.ends[*cause as usize]) {
                visit(format_args!("{end} after {name}"), count, Due::Always);
            }
        }
        let pdir = NAMES[Cause::AddressBeyond as usize];
        visit(format_args!("PDIR refused: {pdir}"), self.refused_pdir, Due::Always);
        for trap in OTHERS {
            for (at, end) in ENDS.iter().enumerate() {
                // An interrupt is due only with iena = 1.
                let due = if trap.is_interrupt() && at == 1 { Due::Never } else { Due::Always };
                let (code, count) = (trap as usize, self.kept[trap as usize][at]);
                visit(format_args!("cause kept by trap {code}, {end}"), count, due);
            }
        }
        visit(format_args!("cause replaced by another"), self.replaced, Due::Always);
    }

    fn visit_accesses(
        &self,
        cause: Cause,
        name: &str,
        visit: &mut impl FnMut(Arguments, u64, Due),
    ) {
        for (at, access) in Access::ALL.iter().enumerate() {
            for (by, mode) in MODES.iter().enumerate() {
                let due = if cause.comes(*access, by == 1) { Due::Always } else { Due::Never };
                let count = self.refused[cause as usize][at][by];
                visit(format_args!("{} refused: {name}, {mode}", ACCESSES[at]), count, due);
            }
        }
    }
}
