//! Telling planted mistakes apart: a mistake is told apart by a case whose
//! output differs from what must come out.

use crate::case::Case;
use crate::expect::{play, Shown};
use crate::families::{cause_of, opcode_of};
use crate::mistake::Mistake;
use crate::types::Cause;

/// What must come out of each case, kept for all mistakes.
pub struct Judge<'a> {
    cases: &'a [Case],
    shown: Vec<Vec<Shown>>,
    /// The cases, the cheapest first: few steps, a small memory.
    by_cost: Vec<usize>,
    /// The same in which an opcode is executed, by item 7's mode (old, doubles,
    /// either) and opcode.
    executing: [Vec<Vec<usize>>; 3],
    /// The same in which an access is refused, by cause.
    refusing: Vec<Vec<usize>>,
}

impl<'a> Judge<'a> {
    pub fn new(cases: &'a [Case]) -> Judge<'a> {
        let played: Vec<_> = cases.iter().map(|case| play(case, None)).collect();
        let cost = |number: &usize| played[*number].coverage.steps + cases[*number].bytes() / 256;
        let mut by_cost: Vec<usize> = (0..cases.len()).collect();
        by_cost.sort_by_key(cost);
        let executes = |number: &usize, code: u8, modes: &[bool]| {
            let coverage = &played[*number].coverage;
            modes.iter().any(|mode| coverage.executions(code, *mode) > 0)
        };
        let with = |code: u8, modes: &[bool]| {
            by_cost.iter().copied().filter(|number| executes(number, code, modes)).collect()
        };
        let modes: [&[bool]; 3] = [&[false], &[true], &[false, true]];
        let executing = modes.map(|modes| (0..=255).map(|code| with(code, modes)).collect());
        let refuses = |number: &usize, cause: Cause| played[*number].coverage.causes.came(cause);
        let refused =
            |cause| by_cost.iter().copied().filter(|number| refuses(number, cause)).collect();
        let refusing = Cause::ALL.into_iter().map(refused).collect();
        let shown = played.into_iter().map(|played| played.shown).collect();
        Judge { cases, shown, by_cost, executing, refusing }
    }

    /// Whether this case tells the mistake apart.
    pub fn tells(&self, number: usize, mistake: Mistake) -> bool {
        play(&self.cases[number], Some(mistake)).shown != self.shown[number]
    }

    /// The cheapest case that tells the mistake apart.
    pub fn telling(&self, mistake: Mistake) -> Option<usize> {
        let candidates = match (opcode_of(mistake), cause_of(mistake)) {
            (Some((code, mode)), _) => {
                &self.executing[mode.map_or(2, usize::from)][usize::from(code)]
            }
            (None, Some(cause)) => &self.refusing[cause as usize],
            (None, None) => &self.by_cost,
        };
        candidates.iter().copied().find(|number| self.tells(*number, mistake))
    }
}
