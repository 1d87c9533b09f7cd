//! What must come of the directed cases on the marks of keys and timer, worked
//! out by hand from document 02's item 1.

mod common;
use common::{after, after_runs, After};
use reference::types::{Cause, Registers, Stop, NO_KEY};

/// The key's mark and the timer's.
fn marks(after: &After) -> (bool, bool) {
    (after.regs().key_pending, after.regs().timer_pending)
}

/// The record given, but for what is named.
fn is_given_but(after: &After, change: impl Fn(Registers) -> Registers) {
    assert_eq!(*after.regs(), change(after.given.record.regs.clone()));
}

#[test]
fn a_masked_event_is_due_in_the_step_after_sti() {
    let key = after_runs("a masked key, then STI", 1);
    assert_eq!((key.regs().pc, key.regs().iena, marks(&key)), (0x108, true, (true, false)));
    let key = after("a masked key, then STI");
    key.delivered(0xf00, 2, 0x108);
    assert_eq!((key.regs().kbchar, marks(&key)), (65, (false, false)));
    let timer = after_runs("a masked timer, then STI", 1);
    assert_eq!((timer.regs().timer, marks(&timer)), (1, (false, true)));
    let timer = after("a masked timer, then STI");
    timer.delivered(0xf00, 1, 0x108);
    assert_eq!((timer.regs().timer, marks(&timer)), (2, (false, false)));
}

/// iena is that of before the step's instruction.
#[test]
fn the_steps_own_sti_and_cli_come_too_late() {
    after("a key in STI's step").delivered(0xf00, 2, 0x104);
    let timer = after("a timer event in STI's step");
    timer.delivered(0xf00, 1, 0x104);
    assert_eq!((timer.regs().timer, marks(&timer)), (1, (false, false)));
    let cli = after("a key in CLI's step");
    cli.delivered(0xf00, 2, 0x100);
    assert_eq!((cli.regs().a, marks(&cli)), (0, (false, false)));
    let masked = after_runs("a key after CLI", 1);
    assert_eq!((masked.regs().a, masked.regs().pc, marks(&masked)), (1, 0x108, (true, false)));
    after("a key after CLI").delivered(0xf00, 2, 0x10c);
}

#[test]
fn a_masked_key_is_due_in_the_step_after_rti() {
    let returned = after_runs("a masked key, then RTI", 1);
    assert_eq!((returned.regs().pc, returned.regs().sp), (0x220, 0xf10));
    assert_eq!(marks(&returned), (true, false));
    after("a masked key, then RTI").delivered(0xf10, 2, 0x220);
    let user = after("a masked key, then RTI to user mode");
    user.delivered(0xf10, 18, 0x220);
    assert_eq!((user.regs().usp, marks(&user)), (0xd00, (false, false)));
}

#[test]
fn two_masked_keys_are_one_interrupt_and_the_last_character() {
    let masked = after_runs("two masked keys", 1);
    assert_eq!((masked.regs().kbchar, masked.regs().keys), (66, 2));
    assert_eq!(marks(&masked), (true, false));
    // STI, FKEYBD, RTI, and the NOP after STI: nothing is due a second time.
    let twice = after("two masked keys");
    assert_eq!((twice.regs().pc, twice.regs().sp, twice.regs().kbchar), (0x110, 0xf00, 66));
    assert_eq!((twice.word(0xef0), twice.word(0xef8), marks(&twice)), (2, 0x10c, (false, false)));
}

#[test]
fn a_polled_key_still_interrupts_once() {
    let polled = after_runs("a masked key polled by BIN", 1);
    polled.delivered(0xf00, 2, 0x108);
    assert_eq!((polled.regs().a, polled.regs().kbchar), (65, NO_KEY));
    let returned = after("a masked key polled by BIN");
    assert_eq!((returned.regs().a, returned.regs().pc, returned.regs().sp), (NO_KEY, 0x10c, 0xf00));
    assert_eq!(marks(&returned), (false, false));
}

#[test]
fn key_and_timer_in_one_step_come_one_after_the_other() {
    let key = after_runs("key and timer in one step", 1);
    key.delivered(0xf00, 2, 0x100);
    assert_eq!((key.regs().timer, marks(&key)), (0, (false, true)));
    let returned = after_runs("key and timer in one step", 2);
    assert_eq!((returned.regs().pc, returned.regs().iena), (0x100, true));
    assert_eq!(marks(&returned), (false, true));
    let timer = after("key and timer in one step");
    timer.delivered(0xf00, 1, 0x100);
    assert_eq!((timer.regs().timer, marks(&timer)), (2, (false, false)));
}

#[test]
fn key_and_timer_in_one_masked_step() {
    let masked = after_runs("key and timer in one masked step", 1);
    assert_eq!((masked.regs().iena, marks(&masked)), (true, (true, true)));
    let key = after_runs("key and timer in one masked step", 2);
    key.delivered(0xf00, 2, 0x104);
    assert_eq!(marks(&key), (false, true));
    let timer = after("key and timer in one masked step");
    timer.delivered(0xf00, 1, 0x104);
    assert_eq!((timer.regs().timer, marks(&timer)), (3, (false, false)));
}

#[test]
fn both_marks_are_cleared_one_by_one() {
    let key = after_runs("both marks", 1);
    key.delivered(0xf00, 2, 0x100);
    assert_eq!(marks(&key), (false, true));
    let timer = after_runs("both marks", 3);
    timer.delivered(0xf00, 1, 0x100);
    assert_eq!(marks(&timer), (false, false));
    let returned = after("both marks");
    assert_eq!((returned.regs().pc, returned.regs().sp), (0x100, 0xf00));
    let opened = after_runs("the timer's mark in the key's handler", 1);
    assert_eq!((opened.regs().pc, marks(&opened)), (0x804, (false, true)));
    after("the timer's mark in the key's handler").delivered(0xef0, 1, 0x804);
}

#[test]
fn an_event_beside_the_others_mark() {
    for name in ["a key beside the timer's mark", "the timer beside the key's mark"] {
        let key = after_runs(name, 1);
        key.delivered(0xf00, 2, 0x100);
        assert_eq!(marks(&key), (false, true), "{name}");
        let timer = after(name);
        timer.delivered(0xf00, 1, 0x100);
        assert_eq!(marks(&timer), (false, false), "{name}");
    }
}

/// It stays one mark and is one interrupt; kbchar, keys taken and timer move.
#[test]
fn an_event_beside_its_own_mark() {
    let key = after_runs("a key beside its own mark", 1);
    key.delivered(0xf00, 2, 0x100);
    assert_eq!((key.regs().kbchar, key.regs().keys, marks(&key)), (65, 1, (false, false)));
    let timer = after_runs("the timer beside its own mark", 1);
    timer.delivered(0xf00, 1, 0x100);
    assert_eq!((timer.regs().timer, marks(&timer)), (0, (false, false)));
    for name in ["a key beside its own mark", "the timer beside its own mark"] {
        let went_on = after(name);
        assert_eq!((went_on.regs().pc, went_on.regs().sp), (0x104, 0xf00), "{name}");
    }
    is_given_but(&after("both events beside both marks"), |given| Registers {
        pc: 0x104,
        count: 1,
        kbchar: 65,
        keys: 1,
        timer: 0,
        ..given
    });
}

#[test]
fn a_mark_given_is_due_without_an_event() {
    let key = after("the key's mark given");
    key.delivered(0xf00, 2, 0x100);
    assert_eq!((key.regs().kbchar, key.regs().keys, key.regs().timer), (NO_KEY, 0, 7));
    let timer = after("the timer's mark given");
    timer.delivered(0xf00, 1, 0x100);
    assert_eq!((timer.regs().timer, timer.regs().timeout), (7, 0));
    for (name, code) in
        [("the key's mark given in user mode", 18), ("the timer's mark given in user mode", 17)]
    {
        let user = after(name);
        user.delivered(0xe00, code, 0x100);
        assert_eq!((user.regs().usp, marks(&user)), (0xf00, (false, false)));
    }
    let masked = after("both marks given, masked");
    is_given_but(&masked, |given| Registers { pc: 0x104, count: 1, ..given });
}

/// The instruction that would fault isn't fetched.
#[test]
fn a_mark_comes_before_a_fault() {
    after_runs("a mark before a fault", 1).delivered(0xf00, 2, 0x100);
    after("a mark before a fault").delivered(0xf00, 4, 0x104);
    let fetch = after("a mark before a fetch fault");
    fetch.delivered(0xf00, 1, 0x1000);
    assert_eq!((fetch.regs().vadr, marks(&fetch)), (0, (false, false)));
}

#[test]
fn waiting_ends_where_a_mark_is_due() {
    is_given_but(&after("waiting masked, both marks"), |given| Registers { count: 3, ..given });
    for (name, code) in [("waiting and the key's mark", 2), ("waiting and the timer's mark", 1)] {
        let woken = after(name);
        woken.delivered(0xf00, code, 0x100);
        assert!(!woken.regs().waiting);
        assert_eq!(marks(&woken), (false, false));
    }
    let idle = after("IDLE masked, a mark");
    is_given_but(&idle, |given| Registers { pc: 0x108, count: 2, ..given });
}

/// The interrupt comes before IDLE, which then waits for the next one.
#[test]
fn a_mark_between_sti_and_idle() {
    after_runs("STI and IDLE, a mark", 1).delivered(0xf00, 2, 0x104);
    let waits = after("STI and IDLE, a mark");
    assert_eq!((waits.regs().pc, waits.regs().waiting, waits.regs().count), (0x108, true, 9));
    assert_eq!(marks(&waits), (false, false));
}

#[test]
fn no_instruction_clears_a_mark() {
    let time = after_runs("TIME 0 keeps the timer's mark", 1);
    is_given_but(&time, |given| Registers { pc: 0x104, count: 1, timer: 4, timeout: 0, ..given });
    let due = after("TIME 0 keeps the timer's mark");
    due.delivered(0xf00, 1, 0x108);
    assert_eq!((due.regs().timer, due.regs().timeout, marks(&due)), (4, 0, (false, false)));
    let bin = after("BIN keeps the key's mark");
    is_given_but(&bin, |given| Registers { pc: 0x104, count: 1, a: NO_KEY, ..given });
    let cli = after("CLI keeps the marks");
    is_given_but(&cli, |given| Registers { pc: 0x104, count: 1, ..given });
    let halt = after("HALT keeps the marks");
    is_given_but(&halt, |given| Registers { pc: 0x104, count: 1, stop: Stop::Halted, ..given });
}

/// As before the delivery, but that waiting has ended; a later run makes no
/// step, takes no key and changes nothing.
#[test]
fn a_stop_with_3_keeps_the_marks() {
    let both = after("stop 3 keeps both marks");
    let stopped = |given| Registers { count: 1, stop: Stop::NoFrame, ..given };
    is_given_but(&both, |given| Registers { waiting: false, ..stopped(given) });
    let steps: Vec<u64> = both.outcomes.iter().map(|outcome| outcome.steps).collect();
    assert_eq!((steps, both.outcomes[1].answer), (vec![1, 0], 0));
    for name in ["stop 3 at the second slot keeps the mark", "stop 3 in user mode keeps the mark"] {
        let one = after(name);
        is_given_but(&one, stopped);
        assert!(one.memory_is_unchanged(), "{name}");
    }
    let event = after("stop 3 keeps a timer event");
    is_given_but(&event, |given| Registers { timer: 0, timer_pending: true, ..stopped(given) });
}

/// The first slot is on page 3, the second on page 2, which lacks W.
#[test]
fn a_stop_with_3_keeps_walks_and_the_mark() {
    let walked = after("stop 3 after a walk keeps the mark");
    is_given_but(&walked, |given| Registers { count: 1, stop: Stop::NoFrame, ..given });
    assert_eq!(walked.entries(), [(3, 3, true, true)]);
    assert_eq!([0x3000, 0x200c, 0x2008].map(|at| walked.word(at)), [0, 0x3067, 0x2005]);
}

#[test]
fn a_stop_with_2_keeps_the_marks() {
    let stopped = |given| Registers { count: 1, stop: Stop::Masked, ..given };
    for name in ["stop 2 keeps both marks", "stop 2 at TRAP keeps the key's mark"] {
        is_given_but(&after(name), stopped);
    }
    let fetch = after("stop 2 at a fetch keeps the timer's mark");
    let cause = Cause::AddressBeyond;
    is_given_but(&fetch, |given| Registers { vadr: 0x1000, cause, ..stopped(given) });
    is_given_but(&after("stop 2 keeps the step's events"), |given| Registers {
        kbchar: 65,
        keys: 1,
        timer: 0,
        key_pending: true,
        timer_pending: true,
        ..stopped(given)
    });
}

#[test]
fn marks_are_handed_on_from_run_to_run() {
    let [first, second] = [1, 2].map(|count| after_runs("a mark is handed on", count));
    assert_eq!((first.regs().iena, marks(&first)), (false, (true, false)));
    assert_eq!((second.regs().iena, marks(&second)), (true, (true, false)));
    after("a mark is handed on").delivered(0xf00, 2, 0x108);
    for count in [1, 2] {
        let unmoved = after_runs("marks in runs without steps", count);
        is_given_but(&unmoved, |given| given);
    }
    let moved = after("marks in runs without steps");
    let outcomes: Vec<_> = moved.outcomes.iter().map(|one| (one.answer, one.steps)).collect();
    assert_eq!(outcomes, [(6, 0), (0, 0), (0, 1)]);
    moved.delivered(0xf00, 2, 0x100);
    is_given_but(&after("marks of a stopped machine"), |given| given);
}

/// LI, twenty rounds of two, STI in step 42, the interrupt, HALT at the handler.
#[test]
fn a_mark_waits_through_a_burst_for_sti() {
    for (name, code, kbchar, timer) in [
        ("a key in a masked burst", 2, 65, 0),
        // It fires in steps 10, 20, 30 and 40.
        ("timer events in a masked burst", 1, NO_KEY, 4),
    ] {
        let after = after(name);
        assert_eq!((after.regs().stop, after.regs().count), (Stop::Halted, 44), "{name}");
        assert_eq!((after.word(0xef0), after.word(0xef8)), (code, 0x110), "{name}");
        assert_eq!((after.regs().pc, after.regs().sp), (0x804, 0xef0), "{name}");
        assert_eq!((after.regs().kbchar, after.regs().timer), (kbchar, timer), "{name}");
        assert_eq!(marks(&after), (false, false), "{name}");
    }
    is_given_but(&after("both marks in a masked burst"), |given| Registers { count: 50, ..given });
}

#[test]
fn a_masked_key_leaves_a_block_alone() {
    let copying = after_runs("a masked key between two bytes", 1);
    assert_eq!((copying.regs().pc, copying.regs().c, marks(&copying)), (0x100, 0, (true, false)));
    let copied = after("a masked key between two bytes");
    copied.delivered(0xf00, 2, 0x108);
    assert_eq!((copied.regs().a, copied.regs().b), (0x202, 0x302));
}
