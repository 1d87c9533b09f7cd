//! What the directed cases on table walks report, worked out by hand.

mod common;
use common::{after, after_runs, runs};
use reference::machine::Machine;
use reference::types::Stop;

/// The walks that each run of a case reports.
fn walks(name: &str) -> Vec<u64> {
    after(name).outcomes.iter().map(|outcome| outcome.walks).collect()
}

fn all(list: &[(&str, &[u64])]) {
    for (name, expected) in list {
        assert_eq!(walks(name), *expected, "{name}");
    }
}

/// Fetch, two operands, two slots. RTI has four at most: where its reads are on
/// two pages, both slots are on the first.
#[test]
fn the_most_in_a_step() {
    all(&[
        ("five walks in a step", &[5]),
        ("five walks by MCMP in user mode", &[5]),
        ("five walks and no frame", &[5]),
        ("four walks in a step", &[4]),
        ("four walks by RTI", &[4]),
        // Fetch, read and write in the first step, hits in the second, a write
        // that faults in the third.
        ("MCPY over a page's end", &[4]),
    ]);
    after("five walks by MCMP in user mode").delivered(0x5008, 25, 0x104);
    after("four walks by RTI").delivered(0x3ff8, 9, 0x104);
    let refused = after("five walks and no frame");
    assert_eq!((refused.regs().stop, refused.machine.walks.faulted), (Stop::NoFrame, 2));
    assert_eq!(refused.machine.walks.by_slots, 2);
    assert_eq!(after("MCPY over a page's end").outcomes[0].steps, 3);
}

#[test]
fn slots_count_refused_ones_too() {
    all(&[
        ("the first slot is walked for and refused", &[2]),
        ("second slot refused after a walk", &[3]),
        ("stop 3 after a walk keeps the mark", &[2]),
        ("an interrupt's slot is walked for and refused", &[1]),
        // The handler's fetch is walked for in the next run.
        ("an interrupt's slots are walked for", &[2, 1]),
        ("one walk for two slots", &[2]),
    ]);
    for name in [
        "the first slot is walked for and refused",
        "an interrupt's slot is walked for and refused",
    ] {
        let after = after(name);
        assert_eq!((after.regs().stop, after.regs().vadr), (Stop::NoFrame, 0), "{name}");
    }
}

#[test]
fn walks_that_fault_count() {
    all(&[("a faulting fetch alone", &[1]), ("two faulting fetches alone", &[2])]);
    for name in ["a faulting fetch alone", "two faulting fetches alone"] {
        let walks = after(name).machine.walks;
        assert_eq!((walks.faulted, walks.entered.len()), (walks.made, 0), "{name}");
    }
    // Each after the fetch's own.
    all(&[
        ("directory absent", &[2]),
        ("directory beyond memory", &[2]),
        ("table word absent", &[2]),
        ("user read without U", &[2]),
        ("no W in the table word", &[2]),
        ("frame beyond, by a write", &[2]),
        ("a refused walk leaves the entry", &[1]),
    ]);
}

#[test]
fn hits_and_accesses_with_paging_off_do_not() {
    all(&[
        ("hits alone", &[0]),
        ("no walks with paging off", &[0]),
        ("PDIR's own fault is no walk", &[0]),
        ("PDIR's own fault with paging off", &[0]),
        ("PDIR beyond memory", &[1]),
        ("waiting walks nowhere", &[0]),
        ("a stale entry serves", &[1]),
        ("64 held, a held page", &[0]),
    ]);
    // Four fetches, a read, two writes and two slots.
    assert_eq!(after("hits alone").machine.walks.hits, 9);
    after("hits alone").delivered(0xef8, 5, 0x110);
    assert_eq!(after("no walks with paging off").regs().vadr, 0x7000);
    assert_eq!(after("waiting walks nowhere").outcomes[0].steps, 3);
}

/// The table reader, on the same cases.
#[test]
fn the_table_reader_walks_at_each_access() {
    for (name, expected) in
        [("hits alone", 9), ("no walks with paging off", 0), ("PDIR's own fault is no walk", 3)]
    {
        let case = runs(name);
        let mut reader = Machine::table_reader(case.memory, case.console, &case.record);
        assert_eq!(reader.run(&[], case.runs[0].budget).walks, expected, "{name}");
    }
}

#[test]
fn emptying_the_buffer_leaves_the_count() {
    // Twice for each page, in place of the hits that would come.
    all(&[("PDIR amid walks", &[6]), ("SPAG amid walks", &[6])]);
    all(&[("SPAG off and on amid walks", &[4]), ("PDIR refused amid walks", &[3])]);
    assert!(!after("PDIR refused amid walks").machine.walks.emptied);
    assert_eq!(after("PDIR refused amid walks").regs().pc, 0x10c);
}

#[test]
fn each_run_counts_from_0() {
    all(&[
        ("each run counts from 0", &[2, 2, 0]),
        ("runs without steps after walks", &[2, 0, 1, 0, 1, 0]),
        ("a run refused for its keys", &[2, 0]),
    ]);
    let numbers = |name: &str| -> Vec<(u32, u64)> {
        after(name).outcomes.iter().map(|outcome| (outcome.answer, outcome.steps)).collect()
    };
    let list = [(0, 1), (6, 0), (0, 1), (0, 0), (0, 2), (0, 0)];
    assert_eq!(numbers("runs without steps after walks"), list);
    assert_eq!(numbers("a run refused for its keys"), [(0, 1), (4, 0)]);
}

#[test]
fn a_key_leaves_the_count() {
    // Fetch and read, the first key's slots, two writes.
    all(&[("keys amid walks", &[5]), ("masked keys amid walks", &[4])]);
    assert_eq!(
        (after("keys amid walks").regs().keys, after("keys amid walks").regs().count),
        (2, 8)
    );
}

/// Pages entered, the second bound's number, and the walks.
fn counted(name: &str) -> (usize, u64, u64) {
    let walks = after(name).machine.walks;
    (walks.entered.len(), walks.bound(), walks.made)
}

#[test]
fn twice_the_pages_is_reached() {
    for (name, pages) in [("a page fetched, then written", 1), ("64 pages read, then written", 64)]
    {
        assert_eq!(counted(name), (pages, 2 * pages as u64, 2 * pages as u64));
        assert_eq!(after(name).machine.walks.lacking(), [false; 4], "{name}");
    }
    assert_eq!(counted("a faulting fetch alone"), (0, 1, 1));
}

/// Each thing that the second bound asks for is needed.
#[test]
fn more_than_twice_the_pages() {
    for (name, expected, lacking) in [
        // The read of the last page empties the buffer, and so does the write of
        // the last but one; each time the program's own page is walked for again.
        ("65 pages read, then written", (65, 130, 132), 3),
        ("63 entries given, three walks for a page", (2, 4, 5), 0),
        ("PDIR amid walks", (2, 4, 6), 1),
        ("SPAG amid walks", (2, 4, 6), 1),
        ("a word stored into", (3, 6, 7), 2),
    ] {
        assert_eq!(counted(name), expected, "{name}");
        let found = after(name).machine.walks.lacking();
        assert_eq!(found, [0, 1, 2, 3].map(|nth| nth == lacking), "{name}");
    }
    assert!(after_runs("a word stored into", 1).regs().user);
}

#[test]
fn many_walks() {
    let after = after("more than 65,535 walks");
    // In every turn of 71 steps all 70 pages, and the program's own after each
    // page that emptied the buffer.
    assert!(after.outcomes[0].walks > 1 << 16, "{:?}", after.outcomes);
    assert_eq!((after.outcomes[0].steps, after.machine.walks.entered.len()), (66_000, 71));
}
