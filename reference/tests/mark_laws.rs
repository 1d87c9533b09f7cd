//! The marks over every step of random runs, by the records before and after
//! it: what document 02's item 1 says of a step, whatever else the step does.

use reference::case::{Case, Runs};
use reference::machine::Machine;
use reference::random::scene::{case, Purpose};
use reference::types::{Registers, Stop};
use reference::words::get;

const SEED: u64 = 11;
const CASES: u64 = 4000;
/// Steps looked at in a run.
const STEPS: u64 = 200;

/// The key's mark and the timer's once rules 2 and 3 are done.
fn marked(before: &Registers, after: &Registers) -> [bool; 2] {
    let out = before.timeout != 0 && u64::from(before.timer) + 1 > u64::from(before.timeout);
    [before.key_pending || after.keys > before.keys, before.timer_pending || out]
}

/// Checks a step. Whether an interrupt was delivered, and which.
fn check(before: &Registers, machine: &Machine) -> Option<usize> {
    let after = &machine.regs;
    let marked = marked(before, after);
    let stand = [after.key_pending, after.timer_pending];
    let first = marked.iter().position(|mark| *mark).filter(|_| before.iena);
    let Some(first) = first.filter(|_| after.stop != Stop::NoFrame) else {
        assert_eq!(stand, marked, "nothing but its delivery clears a mark");
        let unmoved = after.pc == before.pc && after.iena == before.iena;
        assert!(first.is_none() || (unmoved && !after.waiting), "a stop with 3 ends waiting");
        assert!(first.is_some() || !before.waiting || (unmoved && after.waiting), "waits on");
        return None;
    };
    let mut left = marked;
    left[first] = false;
    assert_eq!(stand, left, "its delivery clears its mark and no other");
    assert_eq!(
        (after.pc, after.iena, after.user, after.waiting),
        (before.ivec, false, false, false)
    );
    if !before.paging {
        let code = [2, 1][first] + if before.user { 16 } else { 0 };
        assert_eq!(get(&machine.memory, after.sp, 4), code);
        assert_eq!(get(&machine.memory, after.sp + 8, 4), before.pc);
    }
    Some(first)
}

/// Counts the interrupts of a case, the key's and the timer's.
fn count(case: &Runs, counts: &mut [u64; 2]) {
    let mut machine = Machine::buffered(case.memory.clone(), case.console.clone(), &case.record);
    for run in &case.runs {
        for _ in 0..run.budget.min(STEPS) {
            let before = machine.regs.clone();
            if machine.run(&run.keys, 1).steps == 0 {
                assert_eq!(machine.regs, before);
                break;
            }
            if let Some(first) = check(&before, &machine) {
                counts[first] += 1;
            }
        }
    }
}

#[test]
fn every_step_of_random_runs() {
    let mut counts = [0; 2];
    for number in 0..CASES {
        if let Case::Runs(runs) = case(SEED, number, Purpose::Any) {
            count(&runs, &mut counts);
        }
    }
    assert!(counts.iter().all(|count| *count > 1000), "{counts:?}");
}
