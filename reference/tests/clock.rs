//! What must come of the directed cases on keys, timer and waiting.

mod common;
use common::{after, after_runs};
use reference::types::NO_KEY;

#[test]
fn keys_are_due_by_the_raised_count() {
    let due = after("key by the raised count");
    assert_eq!((due.regs().kbchar, due.regs().keys, due.regs().key_pending), (65, 1, true));
    let later = after("key not yet due");
    assert_eq!((later.regs().kbchar, later.regs().keys), (NO_KEY, 0));
    assert!(!later.regs().key_pending);
    assert_eq!(after("key 0xff").regs().kbchar, 255);
    for (name, keys) in [
        ("key due in the high half alone", 0),
        ("key due beyond 2^32", 1),
        ("key due though its low half is larger", 1),
        ("key of step 2^63", 0),
    ] {
        assert_eq!(after(name).regs().keys, keys, "{name}");
    }
}

#[test]
fn one_key_a_step() {
    let after_two = after("one key a step");
    assert_eq!((after_two.regs().kbchar, after_two.regs().keys), (2, 2));
    let first = after_runs("keys go on in the next run", 1);
    assert_eq!((first.regs().kbchar, first.regs().keys), (8, 2));
    let second = after("keys go on in the next run");
    assert_eq!((second.regs().kbchar, second.regs().keys), (9, 3));
}

#[test]
fn the_timer_passes_timeout() {
    let reached = after("timer reaches timeout");
    assert_eq!((reached.regs().timer, reached.regs().pc), (4, 0x104));
    let passed = after("timer passes timeout");
    passed.delivered(0xf00, 1, 0x100);
    assert_eq!(passed.regs().timer, 0);
    assert_eq!(after("timeout 0 keeps the timer").regs().timer, 7);
    let last = after("timer at 2^32 - 1");
    last.delivered(0xf00, 1, 0x100);
    assert_eq!(last.regs().timer, 0);
    for name in ["timer above timeout", "timer of 2^31"] {
        let passed = after(name);
        passed.delivered(0xf00, 1, 0x100);
        assert_eq!(passed.regs().timer, 0, "{name}");
    }
    let below = after("timeout of 2^31");
    assert_eq!((below.regs().timer, below.regs().pc), (6, 0x104));
    let before_last = after("timer at 2^32 - 2");
    assert_eq!((before_last.regs().timer, before_last.regs().pc), (u32::MAX, 0x104));
}

#[test]
fn a_key_comes_before_the_timer_whose_mark_stays() {
    let after = after("key before timer");
    after.delivered(0xf00, 2, 0x100);
    assert_eq!((after.regs().timer, after.regs().timer_pending), (0, true));
    assert!(!after.regs().key_pending);
}

#[test]
fn time_sets_timeout_alone() {
    let set = after_runs("TIME keeps the timer", 1);
    assert_eq!((set.regs().timer, set.regs().timeout), (6, 3));
    let next = after("TIME keeps the timer");
    next.delivered(0xf00, 1, 0x104);
    assert_eq!(next.regs().timer, 0);
    let unset = after("TIME with an operand");
    assert_eq!((unset.regs().timer, unset.regs().timeout), (6, 9));
    let unset = after("TIME with a low byte of 0");
    assert_eq!((unset.regs().timer, unset.regs().timeout), (6, 9));
}

#[test]
fn waiting() {
    let masked = after("waiting with iena = 0");
    assert!(masked.regs().waiting);
    assert_eq!((masked.regs().pc, masked.regs().count), (0x100, 6));
    // Timer 1, 2, 3, then 0, 1, 2.
    assert_eq!((masked.regs().timer, masked.regs().kbchar), (2, 5));
    assert!(masked.regs().key_pending && masked.regs().timer_pending);
    let idle = after("IDLE with iena = 0");
    assert!(!idle.regs().waiting);
    assert_eq!(idle.regs().pc, 0x104);
    let waits = after_runs("IDLE until a key", 1);
    assert!(waits.regs().waiting);
    let woken = after("IDLE until a key");
    woken.delivered(0xf00, 2, 0x104);
    assert!(!woken.regs().waiting);
    assert!(after_runs("waiting ends by the timer", 1).regs().waiting);
    after("waiting ends by the timer").delivered(0xf00, 1, 0x100);
}

#[test]
fn the_step_count() {
    let late = after("the count passes 2^63");
    assert_eq!(late.outcomes.iter().map(|outcome| outcome.answer).collect::<Vec<_>>(), [0, 2]);
    assert_eq!(late.regs().count, (1 << 63) + 1);
    assert_eq!(after("CYC").regs().a, 0x2345_678a);
    assert_eq!(after("CYC of bit 31").regs().a, 0x8000_0001);
}
