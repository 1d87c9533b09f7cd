//! vadr and cause over every step of random runs: what document 02's item 4
//! says of a step, worked out a second time from the record and memory before
//! it. The checks are a list here, the first of which that fails is the cause.

mod common;
use common::scene::{is_interrupted, Scene};
use reference::case::{Case, Runs};
use reference::machine::Machine;
use reference::random::scene::{case, Purpose};
use reference::types::{Access, Cause, Key, Stop};

const SEED: u64 = 12;
const CASES: u64 = 12_000;
/// Steps looked at in a run.
const STEPS: u64 = 200;

/// Refused accesses by cause and access, and other steps that end in a trap's
/// delivery or stop.
#[derive(Default)]
struct Seen {
    refused: [[u64; 3]; 8],
    others: u64,
}

/// Makes a step and checks it. Whether there was one.
fn step(machine: &mut Machine, keys: &[Key], seen: &mut Seen) -> bool {
    let before = machine.regs.clone();
    let old = (before.vadr, before.cause);
    let comes = machine.answer(keys, 1) == 0 && before.stop == Stop::Running;
    let quiet = comes && (before.waiting || is_interrupted(&before, keys));
    let refused = if comes { Scene::of(machine).refused() } else { None };
    machine.run(keys, 1);
    let after = &machine.regs;
    let found = (after.vadr, after.cause);
    if !comes || quiet {
        assert_eq!(found, old, "nothing was asked for");
        return comes;
    }
    let trapped = after.stop as u32 > 1 || (before.iena && !after.iena && after.pc == after.ivec);
    let Some((vadr, access, cause)) = refused else {
        assert_eq!(found, old, "nothing was refused");
        seen.others += u64::from(trapped && old.1 != Cause::None);
        return true;
    };
    assert_eq!(found, (vadr, cause), "the first check that fails, and where");
    assert!(trapped && (after.stop == Stop::Masked) != before.iena);
    seen.refused[cause as usize][access as usize] += 1;
    true
}

fn follow(case: &Runs, mut machine: Machine, seen: &mut Seen) {
    for run in &case.runs {
        for _ in 0..run.budget.min(STEPS) {
            if !step(&mut machine, &run.keys, seen) {
                break;
            }
        }
    }
}

/// All that can come has come: a write right is missed by writes alone.
fn check(seen: &Seen) {
    for cause in &Cause::ALL[1..] {
        for access in Access::ALL.into_iter().filter(|access| cause.comes(*access, true)) {
            let count = seen.refused[*cause as usize][access as usize];
            assert!(count > 20, "{cause:?} by {access:?}: {count}");
        }
    }
    assert!(seen.others > 1000, "{}", seen.others);
}

#[test]
fn every_step_of_random_runs() {
    let [mut buffered, mut unbuffered] = [Seen::default(), Seen::default()];
    for number in 0..CASES {
        if let Case::Runs(runs) = case(SEED, number, Purpose::Any) {
            let start = |make: fn(_, _, &_) -> Machine| {
                make(runs.memory.clone(), runs.console.clone(), &runs.record)
            };
            follow(&runs, start(Machine::buffered), &mut buffered);
            follow(&runs, start(Machine::table_reader), &mut unbuffered);
        }
    }
    check(&buffered);
    check(&unbuffered);
}
