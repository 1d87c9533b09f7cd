//! The directed cases on refusals give the numbers in their names.

mod common;
use common::{after, runs};
use reference::case::Case;
use reference::directed::all;
use reference::directed::refusals::cases;
use reference::expect::{lines, play};

#[test]
fn the_numbers_in_the_names() {
    for (name, case) in cases() {
        let digits = name.trim_start_matches("load ").split(' ').next().unwrap();
        let number: u64 = digits.parse().unwrap_or(0);
        let lines = lines(0, &case, &play(&case, None));
        let answer: u64 = lines[0].split(' ').nth(2).unwrap().parse().unwrap();
        assert_eq!(answer, number, "{name}");
    }
}

#[test]
fn a_refused_run_leaves_everything() {
    for (name, case) in cases() {
        let Case::Runs(_) = case else { continue };
        let after = after(&name);
        if after.outcomes[0].answer != 0 || name.contains("stopped") || name.contains("budget 0") {
            assert!(after.machine.record() == runs(&name).record, "{name}");
            assert!(after.memory_is_unchanged(), "{name}");
            assert_eq!((after.outcomes[0].steps, after.outcomes[0].walks), (0, 0), "{name}");
        }
    }
}

#[test]
fn names_are_unique() {
    let mut names: Vec<String> = all().into_iter().map(|case| case.0).collect();
    let count = names.len();
    names.sort();
    names.dedup();
    assert_eq!(names.len(), count);
}
