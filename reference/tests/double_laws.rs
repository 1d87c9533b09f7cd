//! Doubles over every step of random runs, by the records before and after it:
//! what document 02's item 7 says of a step, whatever else the step does.

use reference::case::{Case, Runs};
use reference::double::{is_nan, NAN};
use reference::machine::Machine;
use reference::opcodes::floats::{decode_float, Float, FloatReg, Precision};
use reference::random::scene::{case, Purpose};
use reference::types::Registers;

const SEED: u64 = 12;
const CASES: u64 = 4000;
/// Steps looked at in a run.
const STEPS: u64 = 200;

/// The opcode of the instruction that a step completed, if it did.
fn completed(machine: &Machine, executed: u64) -> Option<u8> {
    let ended = (0..=255).map(|code| machine.coverage.ended(code, false)).sum::<u64>();
    (ended > executed).then_some(machine.opcode)
}

/// Which of f and g an instruction may set, and whether what it sets has the one
/// NaN.
fn sets(float: Float) -> Option<(FloatReg, bool)> {
    match float {
        Float::Load(reg, _, precision) => Some((reg, precision == Precision::Single)),
        Float::Pop(reg) => Some((reg, false)),
        Float::LoadImm(reg) => Some((reg, true)),
        Float::Lbad => Some((FloatReg::G, false)),
        Float::Arith(_) | Float::Unary(_) | Float::Cid | Float::Cud => Some((FloatReg::F, true)),
        _ => None,
    }
}

/// Checks a step. Whether f or g was set, and to a NaN.
fn check(before: &Registers, after: &Registers, code: Option<u8>) -> [bool; 2] {
    assert_eq!(before.mode, after.mode, "no step sets the mode");
    let float = code.and_then(decode_float);
    assert!(float.is_none() || before.mode, "the old mode completes none of the 46");
    let Some((reg, canonical)) = float.and_then(sets) else {
        assert_eq!((before.f, before.g), (after.f, after.g), "nothing else sets f or g");
        return [false; 2];
    };
    let (set, kept, was) = match reg {
        FloatReg::F => (after.f, after.g, before.g),
        FloatReg::G => (after.g, after.f, before.f),
    };
    assert_eq!(kept, was, "{float:?} sets one of them");
    assert!(!(canonical && is_nan(set)) || set == NAN, "{float:?} gives one NaN: {set:#x}");
    [true, is_nan(set)]
}

fn list(number: u64) -> Option<Runs> {
    match case(SEED, number, Purpose::Any) {
        Case::Runs(runs) => Some(*runs),
        Case::Load(_) => None,
    }
}

#[test]
fn every_step_keeps_what_it_does_not_set() {
    let [mut set, mut nans, mut old] = [0; 3];
    for runs in (0..CASES).filter_map(list) {
        let mut machine = Machine::buffered(runs.memory, runs.console, &runs.record);
        for run in &runs.runs {
            for _ in 0..run.budget.min(STEPS) {
                let before = machine.regs.clone();
                let executed = (0..=255).map(|code| machine.coverage.ended(code, false)).sum();
                if machine.run(&run.keys, 1).steps == 0 {
                    break;
                }
                let code = completed(&machine, executed);
                let [is_set, is_nan] = check(&before, &machine.regs, code);
                set += u64::from(is_set);
                nans += u64::from(is_nan);
                old += u64::from(!before.mode && before.f != 0);
            }
        }
    }
    assert!(set > 3000 && nans > 300 && old > 50_000, "{set}, {nans}, {old}");
}
