//! What must come of the directed cases on causes, worked out by hand from
//! document 02's item 4.

mod common;
use common::{after, after_runs, runs, After};
use reference::compare::{compare, Question, Verdict};
use reference::coverage::Coverage;
use reference::directed::causes::{cases, older, ALONE, ASKED, AT_ONCE, BEYOND};
use reference::directed::causes::{DIRECTORY, OLD, OTHERS, REFUSED, TABLE};
use reference::types::{Access, Cause, Registers, Stop, MAX_BUDGET};

/// The entry of the program's page, after its fetch and after a frame there.
const FETCHED: (u32, u32, bool, bool) = (0, 0, true, false);
const FRAMED: (u32, u32, bool, bool) = (0, 0, true, true);

/// vadr and the cause's number.
fn fault(after: &After) -> (u32, u32) {
    (after.regs().vadr, after.regs().cause as u32)
}

/// The directory and the table word of what is asked.
fn words(after: &After) -> [u32; 2] {
    [DIRECTORY, TABLE].map(|at| after.word(at))
}

/// The fault of an access to ASKED, or to BEYOND with paging off, is delivered;
/// a fetch asks two bytes below.
fn is_delivered(name: &str, access: Access, code: u32, cause: u32) -> After {
    let after = after(name);
    let given = &after.given.record.regs;
    let asked = if given.paging { ASKED } else { BEYOND };
    let (vadr, pc) = if access == Access::Fetch { (asked - 2, asked - 2) } else { (asked, 0x104) };
    let (top, mark) = if given.user { (0xe00, 16) } else { (0xf00, 0) };
    assert_eq!(fault(&after), (vadr, cause), "{name}");
    after.delivered(top, code + mark, pc);
    after
}

/// The record given, but for the stop and what is named.
fn is_stopped(name: &str, stop: Stop, change: impl Fn(Registers) -> Registers) -> After {
    let after = after(name);
    let stopped = Registers { stop, count: 1, ..after.given.record.regs.clone() };
    assert_eq!(*after.regs(), change(stopped), "{name}");
    after
}

/// By cause: its number, the codes of fetch, read and write, and the words after
/// a read. Only a frame beyond memory is known after the table word is marked.
#[rustfmt::skip]
const RESULTS: [(u32, [u32; 3], [u32; 2]); 7] = [
    (1, [0, 0, 0], [0, 0]),
    (2, [7, 9, 8], [0x2006, 0x3007]),
    (3, [0, 0, 0], [0x4027, 0x3007]),
    (4, [7, 9, 8], [0x2027, 0x3006]),
    (5, [7, 9, 8], [0x2027, 0x3003]),
    (6, [7, 9, 8], [0x2027, 0x3005]),
    (7, [0, 0, 0], [0x2027, 0x4027]),
];

/// From a record without a cause.
#[test]
fn each_cause_by_access_and_mode() {
    let mut seen = 0;
    for ((cause, given), (number, codes, marked)) in ALONE.iter().zip(RESULTS) {
        for access in Access::ALL {
            for user in [false, true].into_iter().filter(|user| cause.comes(access, *user)) {
                let name = format!("{cause:?} by {access:?}, user mode: {user}");
                let after = is_delivered(&name, access, codes[access as usize], number);
                assert_eq!(after.given.record.regs.cause, Cause::None);
                let dirty = number == 7 && access == Access::Write;
                let marked = [marked[0], if dirty { marked[1] | 0x40 } else { marked[1] }];
                if given.is_some() {
                    assert_eq!((words(&after), after.entries()), (marked, vec![FRAMED]), "{name}");
                }
                seen += 1;
            }
        }
    }
    // Six ways of access, but for user right three, for write right two.
    assert_eq!(seen, 5 * 6 + 3 + 2);
}

/// By name: the cause, the code, the words after the access.
#[rustfmt::skip]
const FIRST: [(&str, u32, u32, [u32; 2]); 33] = [
    ("2 and 3", 2, 9, [0x4006, 0x3007]),
    ("2 and 4", 2, 9, [0x2006, 0x3006]),
    ("2 and 5", 2, 9, [0x2002, 0x3007]),
    ("2 and 6", 2, 8, [0x2004, 0x3007]),
    ("2 and 7", 2, 9, [0x2006, 0x4007]),
    ("2 and all others", 2, 8, [0xffff_f000, 0]),
    ("3 and 5", 3, 0, [0x4023, 0]),
    ("3 and 6", 3, 0, [0x4025, 0]),
    ("3, 5 and 6", 3, 0, [0x4021, 0]),
    ("4 and 5", 4, 9, [0x2027, 0x3002]),
    ("4 and 5 by a fetch", 4, 7, [0x2023, 0x3006]),
    ("4 and 6", 4, 8, [0x2027, 0x3004]),
    ("4 and 7", 4, 9, [0x2027, 0x4006]),
    ("4 and all after it", 4, 8, [0x2021, 0xffff_f000]),
    ("5 and 6", 5, 8, [0x2027, 0x3001]),
    ("5 and 7", 5, 9, [0x2027, 0x4003]),
    ("5 and 7 by a fetch", 5, 7, [0x2027, 0x4003]),
    ("5, 6 and 7", 5, 8, [0x2027, 0x4001]),
    ("6 and 7", 6, 8, [0x2027, 0x4005]),
    ("6 and 7 in user mode", 6, 8, [0x2027, 0x4005]),
    ("U missing above", 5, 9, [0x2023, 0x3007]),
    ("U missing in both words", 5, 9, [0x2023, 0x3003]),
    ("U missing above, by a fetch", 5, 7, [0x2023, 0x3007]),
    ("U missing above, by a write", 5, 8, [0x2023, 0x3007]),
    ("W missing above", 6, 8, [0x2025, 0x3007]),
    ("W missing above, in user mode", 6, 8, [0x2025, 0x3007]),
    ("W missing in both words", 6, 8, [0x2025, 0x3005]),
    ("U missing above, W below", 5, 8, [0x2023, 0x3005]),
    ("W missing above, U below", 5, 8, [0x2025, 0x3003]),
    ("U missing, kernel write without W", 6, 8, [0x2023, 0x3001]),
    ("U missing, kernel read beyond", 7, 0, [0x2023, 0x4023]),
    ("W missing, user read beyond", 7, 0, [0x2025, 0x4025]),
    ("W missing, fetch beyond", 7, 0, [0x2027, 0x4025]),
];

/// It replaces an older cause.
#[test]
fn the_first_of_several_causes() {
    for ((name, access, ..), (same, cause, code, marked)) in AT_ONCE.iter().zip(FIRST) {
        assert_eq!(*name, same);
        let after = is_delivered(&format!("causes: {name}"), *access, code, cause);
        assert_eq!((words(&after), after.entries()), (marked, vec![FRAMED]), "{name}");
        assert_eq!(after.given.record.regs.cause, Cause::AddressBeyond);
    }
}

/// Registers are as before the fetch, but for vadr and cause.
#[test]
fn stops_keep_the_new_cause() {
    for (cause, words) in ALONE {
        let asked = if words.is_some() { ASKED } else { BEYOND };
        let accesses = [(Access::Fetch, asked - 2), (Access::Write, asked)];
        for (access, vadr) in accesses.into_iter().filter(|one| cause.comes(one.0, true)) {
            for (name, stop) in [("stop 2", Stop::Masked), ("stop 3", Stop::NoFrame)] {
                let name = format!("{name} after {cause:?} by {access:?}");
                let after = is_stopped(&name, stop, |given| Registers { vadr, cause, ..given });
                assert_eq!(after.given.record.regs.cause, older(cause));
                assert_ne!(older(cause), cause);
            }
        }
    }
}

#[test]
fn pdirs_own_fault_is_an_address_beyond_memory() {
    let cause = Cause::AddressBeyond;
    for (name, stop) in [("stop 2 after PDIR", Stop::Masked), ("stop 3 after PDIR", Stop::NoFrame)]
    {
        is_stopped(name, stop, |given| Registers { vadr: 0x4003, cause, ..given });
    }
    for name in ["PDIR refused, paging on", "PDIR refused, paging off"] {
        let after = after(name);
        after.delivered(0xf00, 0, 0x104);
        assert_eq!(fault(&after), (0x4003, 1), "{name}");
    }
    let user = after("PDIR in user mode");
    user.delivered(0xe00, 19, 0x104);
    assert_eq!(fault(&user), (OLD, 7));
}

#[test]
fn other_traps_keep_the_cause() {
    for (name, code) in OTHERS {
        let delivered = after(&format!("{name} keeps the cause"));
        delivered.delivered(0xe00, code + 16, if code > 2 { 0x104 } else { 0x100 });
        assert_eq!(fault(&delivered), (OLD, 6), "{name}");
        if code > 2 {
            is_stopped(&format!("{name} keeps the cause, stop 2"), Stop::Masked, |given| given);
        }
        is_stopped(&format!("{name} keeps the cause, stop 3"), Stop::NoFrame, |given| given);
    }
}

/// The rest of a case on an entry that doesn't serve: by access, the cause, the
/// code, the words after, the rights of the entry, which stays.
#[test]
fn an_entry_without_the_right_names_no_cause() {
    use Access::{Fetch, Read, Write};
    for (name, access, cause, code, marked, (user, write)) in [
        ("a walk refuses a read", Read, 4, 9, [0x2027, 0x3006], (false, true)),
        ("a walk refuses a fetch", Fetch, 3, 0, [0x4027, 0x3007], (false, true)),
        ("a walk refuses a kernel write", Write, 2, 8, [0x2006, 0x3007], (true, false)),
        ("a walk refuses a user write", Write, 5, 8, [0x2027, 0x3003], (true, false)),
        ("a walk refuses for W, not U", Write, 6, 8, [0x2027, 0x3005], (false, false)),
        ("a walk leads beyond", Write, 7, 0, [0x2027, 0x4067], (false, false)),
    ] {
        let after = is_delivered(name, access, code, cause);
        assert_eq!(words(&after), marked, "{name}");
        assert_eq!(after.entries(), [(0x404, 3, user, write), FRAMED], "{name}");
    }
}

#[test]
fn an_access_that_is_answered_keeps_the_cause() {
    let read = after("a walk answers a read");
    assert_eq!((read.regs().pc, read.regs().a, fault(&read)), (0x104, 0, (OLD, 1)));
    assert_eq!((words(&read), read.entries()[0]), ([0x2027, 0x3027], (0x404, 3, true, false)));
    let write = after("a walk answers a write");
    assert_eq!((write.regs().pc, write.word(0x3004), fault(&write)), (0x104, ASKED, (OLD, 1)));
    assert_eq!((words(&write), write.entries()[0]), ([0x2027, 0x3067], (0x404, 3, true, true)));
    let hit = after("an entry serves an absent page");
    assert_eq!((hit.regs().pc, hit.word(0x3004), fault(&hit)), (0x104, ASKED, (OLD, 1)));
    assert_eq!((words(&hit), hit.entries()), ([0, 0], vec![(0x404, 3, true, true), FETCHED]));
}

/// The words of pages 4 and 5 show how far an instruction came.
#[test]
fn instructions_of_two_accesses() {
    let pages = |after: &After| [TABLE, TABLE + 4].map(|at| after.word(at));
    for (name, vadr, cause, words) in [
        ("RTI, its second read refused", 0x4000, Cause::FrameBeyond, [0x4027, 0]),
        ("RTI, both reads refused", 0x4ff8, Cause::TableAbsent, [0x3006, 0x4007]),
        ("JSR, its push refused", 0x4000, Cause::NoWriteRight, [0x3005, 0]),
    ] {
        let after = is_stopped(name, Stop::Masked, |given| Registers { vadr, cause, ..given });
        assert_eq!(pages(&after), words, "{name}");
    }
    for (name, top, code, fault_of, words) in [
        ("MCPY, its read refused", 0xf00, 9, (0x4003, 4), [0x3006, 0]),
        ("MCPY, its write refused", 0xf00, 8, (0x4001, 6), [0x3025, 0]),
        ("MCPY, both refused", 0xf00, 0, (0x5003, 7), [0x3006, 0x4027]),
        ("MCMP, its second read refused", 0xe00, 25, (0x4001, 5), [0x3003, 0]),
    ] {
        let after = after(name);
        after.delivered(top, code, 0x104);
        assert_eq!((fault(&after), pages(&after)), (fault_of, words), "{name}");
        let given = &after.given.record.regs;
        let [now, before] = [after.regs(), given].map(|regs| (regs.a, regs.b, regs.c));
        assert_eq!(now, before, "{name}");
    }
}

/// LX is refused by its directory word, the slots for other causes.
#[test]
fn a_refused_slot_sets_neither() {
    for name in [
        "first slot refused, an older cause",
        "second slot refused, an older cause",
        "first slot beyond, an older cause",
        "second slot beyond, an older cause",
    ] {
        let after = is_stopped(name, Stop::NoFrame, |given| given);
        assert_eq!(fault(&after), (OLD, 2), "{name}");
    }
    for name in ["first slot refused, the fault's cause", "second slot refused, the fault's cause"]
    {
        let cause = Cause::DirectoryBeyond;
        is_stopped(name, Stop::NoFrame, |given| Registers { vadr: ASKED, cause, ..given });
    }
}

#[test]
fn a_fault_replaces_the_cause() {
    let name = "one cause after the other";
    for (nth, code) in [24, 16, 24, 24, 24, 16, 24].into_iter().enumerate() {
        let after = after_runs(name, nth + 1);
        let (vadr, cause) = if nth < 6 { (REFUSED[nth], nth as u32 + 2) } else { (REFUSED[0], 2) };
        assert_eq!((fault(&after), after.word(0xdf0)), ((vadr, cause), code), "fault {nth}");
        assert_eq!((after.regs().pc, after.regs().user), (0x108 + 8 * nth as u32, true));
    }
}

#[test]
fn traps_after_a_page_fault_keep_its_cause() {
    let name = "a page fault, then other traps";
    for (nth, code) in [25, 22, 20, 19, 21, 18, 17].into_iter().enumerate() {
        let after = after_runs(name, nth + 1);
        assert_eq!((fault(&after), after.word(0xdf0)), ((0x4003, 4), code), "trap {nth}");
    }
    assert_eq!((after(name).regs().pc, after(name).regs().count), (0x800, 13));
}

#[test]
fn a_program_reads_vadr_and_never_the_cause() {
    let name = "LVAD after a page fault";
    after_runs(name, 1).delivered(0xf00, 9, 0x104);
    let read = after_runs(name, 2);
    assert_eq!((read.regs().a, fault(&read)), (0x4003, (0x4003, 4)));
    // A frame is two words: the code alone, and pc.
    assert_eq!([0xef0, 0xef4, 0xef8, 0xefc].map(|at| read.word(at)), [9, 0, 0x104, 0]);
    assert_eq!((after(name).regs().pc, fault(&after(name))), (0x104, (0x4003, 4)));
}

#[test]
fn quiet_runs_keep_the_cause() {
    let name = "a cause outlasts quiet runs";
    for count in 1..=runs(name).runs.len() {
        assert_eq!(fault(&after_runs(name, count)), (OLD, 5));
    }
    let after = after(name);
    let outcomes: Vec<_> = after.outcomes.iter().map(|one| (one.answer, one.steps)).collect();
    assert_eq!(outcomes, [(0, 0), (6, 0), (0, 2), (0, 2), (0, 1), (0, 0)]);
    assert_eq!((after.regs().stop, after.entries()[1]), (Stop::Halted, (3, 3, true, true)));
    assert_eq!(after.given.runs[1].budget, MAX_BUDGET + 1);
}

/// Both machines name the same cause. A case with an entry is none of demand 3's.
#[test]
fn the_table_reader_names_the_same() {
    let mut compared = 0;
    for (name, _) in cases() {
        let runs = runs(&name);
        if runs.record.buffer.count == 0 {
            let verdict = compare(&runs, Question::default(), &mut Coverage::default());
            assert_eq!(verdict, Verdict::Equal, "{name}");
            compared += 1;
        }
    }
    assert!(compared > 100, "{compared}");
}
