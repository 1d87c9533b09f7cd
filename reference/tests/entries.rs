//! The library's entries: runs divided into calls of budget 1, as FORMAT.md
//! says for entries 4 and 8, show what whole runs do, the sum of their walks
//! too.

use reference::case::decode::read_all;
use reference::case::{Case, RunInput, Runs};
use reference::machine::Machine;
use reference::run::Outcome;
use reference::types::MAX_BUDGET;

const BYTES: &[u8] = include_bytes!("../cases/stored.bin");

/// A run in calls of budget 1, to the first that makes no step.
fn divided(machine: &mut Machine, run: &RunInput) -> Outcome {
    let first = machine.regs.count;
    let (mut left, mut walks) = (run.budget, 0);
    loop {
        let whole = left == 0 || left > MAX_BUDGET || machine.regs.count >= (1 << 63) - 1;
        let budget = if whole { left } else { 1 };
        let outcome = machine.run(&run.keys, budget);
        left -= budget;
        walks += outcome.walks;
        if left == 0 || outcome.steps == 0 {
            return Outcome { steps: machine.regs.count - first, walks, ..outcome };
        }
    }
}

fn agree(case: &Runs) {
    let start = || Machine::buffered(case.memory.clone(), case.console.clone(), &case.record);
    let (mut whole, mut single) = (start(), start());
    for run in &case.runs {
        assert_eq!(whole.run(&run.keys, run.budget), divided(&mut single, run));
        assert!(whole.record() == single.record());
        assert!(whole.memory == single.memory && whole.console == single.console);
    }
}

#[test]
fn stored_runs_may_be_divided() {
    for case in read_all(BYTES).unwrap() {
        if let Case::Runs(runs) = case {
            agree(&runs);
        }
    }
}
