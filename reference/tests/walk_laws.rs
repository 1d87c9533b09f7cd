//! Table walks over random runs: document 02's item 6 with its two bounds. The
//! walks of a step are worked out a second time from the record and memory
//! before it.

mod common;
use common::scene::{is_interrupted, Scene};
use reference::case::{Case, RunInput, Runs};
use reference::machine::Machine;
use reference::random::scene::{case, Purpose};
use reference::types::{Key, Stop};
use std::collections::BTreeSet;

const SEED: u64 = 13;
const CASES: u64 = 8000;
/// Steps looked at in a run.
const STEPS: u64 = 200;

fn random(purpose: Purpose) -> impl Iterator<Item = Runs> {
    (0..CASES).filter_map(move |number| match case(SEED, number, purpose) {
        Case::Runs(runs) => Some(*runs),
        Case::Load(_) => None,
    })
}

fn buffered(case: &Runs) -> Machine {
    Machine::buffered(case.memory.clone(), case.console.clone(), &case.record)
}

fn table_reader(case: &Runs) -> Machine {
    Machine::table_reader(case.memory.clone(), case.console.clone(), &case.record)
}

fn comes(machine: &Machine, keys: &[Key]) -> bool {
    machine.answer(keys, 1) == 0 && machine.regs.stop == Stop::Running
}

/// The walks of the next step: without a frame, and with one.
fn foreseen(machine: &Machine, keys: &[Key]) -> [u64; 2] {
    let mut scene = Scene::of(machine);
    let interrupted = is_interrupted(&machine.regs, keys);
    if !interrupted && !machine.regs.waiting {
        scene.refused();
    }
    let without = scene.walks;
    scene.frame();
    [without, scene.walks]
}

/// Makes a step, if there is one, and checks its walks.
fn step(machine: &mut Machine, keys: &[Key]) -> Option<u64> {
    let foreseen = comes(machine, keys).then(|| foreseen(machine, keys));
    let traps = |machine: &Machine| machine.coverage.traps.as_flattened().iter().sum::<u64>();
    let before = traps(machine);
    let outcome = machine.run(keys, 1);
    let Some(foreseen) = foreseen else {
        assert_eq!((outcome.steps, outcome.walks), (0, 0), "no step, no walk");
        return None;
    };
    let framed = traps(machine) > before || machine.regs.stop == Stop::NoFrame;
    assert_eq!(outcome.walks, foreseen[usize::from(framed)], "as the rules walk");
    assert_eq!(outcome.walks, machine.walks.in_step);
    assert!(outcome.walks <= 5, "never more than five in a step");
    Some(outcome.walks)
}

/// Counts steps by their walks.
fn follow(case: &Runs, mut machine: Machine, counts: &mut [u64; 6]) {
    for run in &case.runs {
        for _ in 0..run.budget.min(STEPS) {
            let Some(walks) = step(&mut machine, &run.keys) else { break };
            counts[walks as usize] += 1;
        }
    }
}

#[test]
fn every_step_of_random_runs() {
    let [mut with, mut without] = [[0; 6]; 2];
    for runs in random(Purpose::Any) {
        follow(&runs, buffered(&runs), &mut with);
        follow(&runs, table_reader(&runs), &mut without);
    }
    let least = [1000, 1000, 1000, 100, 5, 2];
    for counts in [with, without] {
        assert!(counts.iter().zip(least).all(|(count, least)| *count >= least), "{counts:?}");
    }
}

/// A run in calls of budget 1, as far as it is looked at.
fn in_single_steps(machine: &mut Machine, run: &RunInput, budget: u64) -> u64 {
    (0..budget).map(|_| machine.run(&run.keys, 1).walks).sum()
}

#[test]
fn a_run_reports_the_sum_of_its_steps() {
    let (mut walked, mut zero) = (0, 0);
    for runs in random(Purpose::Any) {
        let (mut whole, mut single) = (buffered(&runs), buffered(&runs));
        for run in &runs.runs {
            let budget = run.budget.min(STEPS);
            let outcome = whole.run(&run.keys, budget);
            assert!(outcome.steps > 0 || outcome.walks == 0, "{outcome:?}");
            zero += u64::from(outcome.steps == 0);
            walked += u64::from(outcome.walks > 0);
            // The last of the whole run's steps may pass 2^63.
            if whole.regs.count < 1 << 63 {
                assert_eq!(outcome.walks, in_single_steps(&mut single, run, budget));
            }
        }
    }
    assert!(walked > 2000 && zero > 500, "{walked} {zero}");
}

/// Checks the second bound where it is claimed. The number and the bound then.
fn bounded(machine: &Machine, faulted: u64) -> Option<(u64, u64)> {
    let walks = &machine.walks;
    if walks.lacking() != [false; 4] {
        return None;
    }
    // Nothing leaves the buffer in such a run.
    let entries = machine.buffer.iter().flat_map(|buffer| buffer.entries());
    let pages: BTreeSet<u32> = entries.map(|entry| entry.page).collect();
    assert_eq!(walks.entered, pages);
    let bound = 2 * pages.len() as u64 + faulted;
    assert!(walks.made <= bound, "{walks:?}");
    Some((walks.made, bound))
}

#[test]
fn twice_the_pages_entered_and_the_faulting_walks() {
    let (mut below, mut equal, mut most) = (0, 0, 0);
    for runs in random(Purpose::TwoMachines) {
        let mut machine = buffered(&runs);
        for run in &runs.runs {
            let faulted = |machine: &Machine| {
                machine.coverage.walks_faulted.as_flattened().iter().sum::<u64>()
            };
            let before = faulted(&machine);
            machine.run(&run.keys, run.budget);
            let Some((made, bound)) = bounded(&machine, faulted(&machine) - before) else {
                continue;
            };
            below += u64::from(made < bound);
            equal += u64::from(made > 0 && made == bound);
            most = most.max(made);
        }
    }
    assert!(below > 1000 && equal > 100 && most > 60, "{below} {equal} {most}");
}

/// Up to a store of demand 3's kind both machines ask for the same addresses: an
/// entry serves one, or it is walked for.
#[test]
fn the_table_reader_walks_at_each_access() {
    let (mut hits, mut walks) = (0, 0);
    for runs in random(Purpose::TwoMachines).take(2000) {
        let (mut machine, mut reader) = (buffered(&runs), table_reader(&runs));
        for run in &runs.runs {
            for _ in 0..run.budget.min(STEPS) {
                let walked = machine.run(&run.keys, 1).walks;
                assert_eq!(reader.run(&run.keys, 1).walks, walked + machine.walks.hits);
                (hits, walks) = (hits + machine.walks.hits, walks + walked);
                if machine.held_store.is_some() {
                    break;
                }
            }
            if machine.held_store.is_some() {
                break;
            }
        }
    }
    assert!(hits > 10_000 && walks > 5000, "{hits} {walks}");
}
