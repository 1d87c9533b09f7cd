//! Cutting a list of runs short: once a machine has stopped or a run was
//! refused, the later runs show little. One is kept.

use super::rng::Rng;
use crate::case::Runs;
use crate::machine::Machine;
use crate::types::{Stop, MAX_BUDGET};

/// A run in which the machine stops may as well have the largest budget.
pub fn trim(rng: &mut Rng, case: &mut Runs) {
    let mut machine = Machine::buffered(case.memory.clone(), case.console.clone(), &case.record);
    for nth in 0..case.runs.len() {
        let run = &mut case.runs[nth];
        let outcome = machine.run(&run.keys, run.budget);
        let stopped = machine.regs.stop != Stop::Running;
        if outcome.answer == 0 && stopped && rng.percent(20) {
            run.budget = MAX_BUDGET;
        }
        if outcome.answer != 0 || stopped {
            case.runs.truncate(nth + 2);
            return;
        }
    }
}
