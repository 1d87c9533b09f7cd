//! The random cases: within the format's bounds, the same again after writing
//! and reading, and rich enough.

use reference::case::decode::read_all;
use reference::case::encode::encode;
use reference::case::{Case, Runs};
use reference::coverage::{Coverage, Due};
use reference::expect::play;
use reference::random::scene::{case, Purpose};
use reference::types::{Cause, MAX_BUDGET, PAGE};
use reference::words::get;
use std::sync::LazyLock;

const COUNT: u64 = 5000;

static CASES: LazyLock<Vec<Case>> =
    LazyLock::new(|| (0..COUNT).map(|number| case(1, number, Purpose::Any)).collect());

fn runs() -> impl Iterator<Item = &'static Runs> {
    CASES.iter().filter_map(|case| match case {
        Case::Runs(runs) => Some(&**runs),
        Case::Load(_) => None,
    })
}

#[test]
fn written_and_read_again() {
    for case in &CASES[..1000] {
        assert_eq!(read_all(&encode(case)).unwrap(), std::slice::from_ref(case));
    }
}

#[test]
fn all_answers_and_kinds_are_reached() {
    let mut coverage = Coverage::default();
    for case in CASES.iter() {
        coverage.add(&play(case, None).coverage);
    }
    let missing = coverage.missing(Due::InBulk, &[]);
    let missing: Vec<_> = missing.iter().filter(|kind| !kind.contains(", paging ")).collect();
    assert_eq!(missing, [""; 0]);
    assert!(coverage.steps > 500_000, "{} steps", coverage.steps);
}

/// How many cases of runs have a property.
fn count(holds: impl Fn(&Runs) -> bool) -> usize {
    runs().filter(|runs| holds(runs)).count()
}

/// The directory words of a case with paging on and a good pdir.
fn directory(runs: &Runs) -> Option<[u32; 4]> {
    let regs = &runs.record.regs;
    let good = regs.pdir % PAGE == 0 && runs.memory.len() >= regs.pdir as usize + PAGE as usize;
    (regs.paging && good)
        .then(|| [0, 1, 2, 1023].map(|top| get(&runs.memory, regs.pdir + 4 * top, 4) / PAGE))
}

#[test]
fn tables_are_self_mapped_and_aliased() {
    let self_mapped = count(|runs| {
        let pdir = runs.record.regs.pdir / PAGE;
        directory(runs).is_some_and(|frames| frames.contains(&pdir))
    });
    let aliased =
        count(|runs| directory(runs).is_some_and(|frames| frames[1..].contains(&frames[0])));
    assert!(self_mapped > 500 && aliased > 500, "{self_mapped} and {aliased}");
}

#[test]
fn buffers_lists_and_budgets_vary() {
    let entries = |runs: &Runs| runs.record.buffer.count;
    assert!(count(|runs| entries(runs) == 0) > 1000);
    assert!(count(|runs| (1..62).contains(&entries(runs))) > 200);
    assert!(count(|runs| (62..=64).contains(&entries(runs))) > 200);
    assert!(count(|runs| entries(runs) > 64) > 2);
    let keys = |runs: &Runs| runs.runs[0].keys.iter().map(|key| key.step).collect::<Vec<_>>();
    assert!(count(|runs| keys(runs).windows(2).any(|pair| pair[0] < pair[1])) > 200);
    assert!(count(|runs| keys(runs).windows(2).any(|pair| pair[0] == pair[1])) > 200);
    assert!(count(|runs| keys(runs).windows(2).any(|pair| pair[0] > pair[1])) > 5);
    for budget in [0, 1, MAX_BUDGET, MAX_BUDGET + 1] {
        assert!(count(|runs| runs.runs.iter().any(|run| run.budget == budget)) > 2, "{budget}");
    }
    for length in [0, 4095, 4096, 8192, 16_384, 65_536] {
        assert!(count(|runs| runs.memory.len() == length) > 2, "{length}");
    }
}

#[test]
fn marks_stand_in_every_setting() {
    for (iena, waiting) in [(false, false), (false, true), (true, false), (true, true)] {
        let set =
            |runs: &Runs| (runs.record.regs.iena, runs.record.regs.waiting) == (iena, waiting);
        let least = if waiting { 2 } else { 100 };
        let keys = count(|runs| set(runs) && runs.record.regs.key_pending);
        let timers = count(|runs| set(runs) && runs.record.regs.timer_pending);
        assert!(keys > least && timers > least, "{iena} {waiting}: {keys} and {timers}");
    }
}

#[test]
fn records_have_any_cause() {
    for cause in Cause::ALL {
        let found = count(|runs| runs.record.regs.cause == cause);
        assert!(found > 400, "{cause:?}: {found}");
    }
}
