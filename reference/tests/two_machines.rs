//! Demand 3 by random comparison: the machine with the buffer and the table
//! reader over lists of runs from an empty buffer, ended at the first store of
//! demand 3's kind, and what such a comparison is able to find.

use reference::case::{Case, Runs};
use reference::compare::{compare, Question, Verdict};
use reference::coverage::{Coverage, Due};
use reference::directed;
use reference::mistake::Mistake;
use reference::random::scene::{case, Purpose};
use reference::types::{Cause, Stop, Trap};

const LISTS: u64 = 30_000;
const SEED: u64 = 3;

fn list(number: u64) -> Runs {
    match case(SEED, number, Purpose::TwoMachines) {
        Case::Runs(runs) => *runs,
        Case::Load(_) => unreachable!("no loads are compared"),
    }
}

/// The number of the first list that shows a difference.
fn first_difference(question: Question) -> Option<u64> {
    let mut coverage = Coverage::default();
    (0..LISTS).find(|number| {
        matches!(compare(&list(*number), question, &mut coverage), Verdict::Different(_))
    })
}

fn with(mistake: Mistake) -> Question {
    Question { mistake: Some(mistake), ..Question::default() }
}

#[test]
fn the_two_machines_agree_and_every_kind_was_covered() {
    let mut coverage = Coverage::default();
    let mut ended = 0;
    for number in 0..LISTS {
        match compare(&list(number), Question::default(), &mut coverage) {
            Verdict::Equal => {}
            Verdict::EqualToStore => ended += 1,
            Verdict::Different(text) => panic!("list {number}: {text}"),
        }
    }
    // 3 can't come: entries are only ever kept by walks.
    assert_eq!(coverage.answers[3], 0);
    assert_eq!(coverage.missing(Due::Always, &[0, 1, 2, 4, 5, 6]), [""; 0]);
    assert!(ended > 100);
    println!("{}{ended} of {LISTS} lists ended at a store", coverage.report());
}

#[test]
fn past_such_a_store_they_differ() {
    let past = Question { past_stores: true, ..Question::default() };
    assert!(first_difference(past).is_some());
}

#[test]
fn mistakes_in_the_buffer_are_found() {
    for mistake in [
        Mistake::ReadFillWritable,
        Mistake::RightsIgnoredOnHit,
        Mistake::NeverEmptied,
        Mistake::SameValueKeepsBuffer,
    ] {
        assert!(first_difference(with(mistake)).is_some(), "{mistake:?}");
    }
}

/// The marks of keys and timer are compared: some of these show nowhere else.
#[test]
fn mistakes_in_the_marks_are_found() {
    for mistake in [
        Mistake::MaskedSetsNothing,
        Mistake::TimerLostBesideKey,
        Mistake::TimerMarkFirst,
        Mistake::DeliveryClearsBoth,
        Mistake::StopClearsMark,
        Mistake::MaskedStopClearsMarks,
        Mistake::BinClearsMark,
    ] {
        assert!(first_difference(with(mistake)).is_some(), "{mistake:?}");
    }
}

/// The cause is compared, and shows nowhere else.
#[test]
fn mistakes_in_the_causes_are_found() {
    for mistake in [
        Mistake::PageCausesOnly,
        Mistake::FirstCauseStays,
        Mistake::HitForgetsCause,
        Mistake::UserCauseByTable,
        Mistake::WriteCauseInReads,
        Mistake::CauseOrder(Cause::NoUserRight, Cause::NoWriteRight),
        Mistake::SlotSetsCause(1),
        Mistake::StopForgetsCause(Stop::NoFrame, Cause::FrameBeyond),
        Mistake::TrapForgetsCause(Trap::Farith, Stop::Running),
    ] {
        assert!(first_difference(with(mistake)).is_some(), "{mistake:?}");
    }
}

/// These change only which entries are held, or show by stale ones alone, and
/// the comparison rightly doesn't see them: the stored cases do.
#[test]
fn the_comparison_does_not_see_which_entries_are_held() {
    for mistake in [
        Mistake::ReplacedGoesLast,
        Mistake::FaultDropsEntry,
        Mistake::FaultEmptiesFull,
        Mistake::PdirFaultEmpties,
        // Paging only comes on by SPAG, which empties the buffer.
        Mistake::BuffersUnpaged,
        // What an entry lacks, but for D, the words that it was read from lack.
        Mistake::EntryNames,
    ] {
        let mut coverage = Coverage::default();
        for number in 0..LISTS / 20 {
            let verdict = compare(&list(number), with(mistake), &mut coverage);
            assert!(!matches!(verdict, Verdict::Different(_)), "{mistake:?}");
        }
    }
}

fn directed_case(name: &str) -> Runs {
    let found = directed::all().into_iter().find(|case| case.0 == name);
    match found.unwrap_or_else(|| panic!("no case {name}")).1 {
        Case::Runs(runs) => *runs,
        Case::Load(_) => panic!("{name} is a load"),
    }
}

/// An entry which the store's own walk has just kept counts, and so do the
/// entries a frame's slots have.
#[test]
fn the_moment_of_the_store() {
    for name in ["self-mapped store", "SX into its own table word", "a frame into held words"] {
        let case = directed_case(name);
        let verdict = compare(&case, Question::default(), &mut Coverage::default());
        assert_eq!(verdict, Verdict::EqualToStore, "{name}");
    }
    for name in ["self-mapped store", "a frame into held words"] {
        let past = Question { past_stores: true, ..Question::default() };
        let verdict = compare(&directed_case(name), past, &mut Coverage::default());
        assert!(matches!(verdict, Verdict::Different(_)), "{name}");
    }
}
