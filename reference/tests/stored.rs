//! The stored set: what it holds, that its expected output is this program's,
//! and that it tells every planted mistake apart.

use reference::case::decode::read_all;
use reference::case::Case;
use reference::coverage::{Coverage, Due};
use reference::directed::all;
use reference::expect::{expect, play};
use reference::families::families;
use reference::mistake::Mistake;
use reference::mutants::Judge;
use std::sync::LazyLock;

const BYTES: &[u8] = include_bytes!("../cases/stored.bin");
const OUTPUT: &str = include_str!("../cases/stored.txt");

static CASES: LazyLock<Vec<Case>> = LazyLock::new(|| read_all(BYTES).unwrap());

#[test]
fn the_stored_output_is_this_programs() {
    let mut written = Vec::new();
    expect(BYTES, &mut written).unwrap();
    let written = String::from_utf8(written).unwrap();
    for (ours, stored) in written.lines().zip(OUTPUT.lines()) {
        assert_eq!(ours, stored);
    }
    assert_eq!(written.len(), OUTPUT.len());
}

#[test]
fn it_begins_with_all_directed_cases_and_is_small() {
    for (stored, (name, case)) in CASES.iter().zip(all()) {
        assert!(*stored == case, "{name} changed; write the stored set anew");
    }
    assert!(CASES.len() > all().len() + 20);
    assert!(BYTES.len() + OUTPUT.len() < 1_500_000);
}

#[test]
fn it_covers_every_kind() {
    let mut coverage = Coverage::default();
    for case in CASES.iter() {
        coverage.add(&play(case, None).coverage);
    }
    // Each opcode by mode, paging and end comes in bulk only.
    let missing = coverage.missing(Due::InBulk, &[]);
    let missing: Vec<_> = missing.iter().filter(|kind| !kind.contains(", paging ")).collect();
    assert_eq!(missing, [""; 0]);
}

#[test]
fn it_tells_every_planted_mistake_apart() {
    assert!(Mistake::ALL.len() >= 20);
    // The directed cases alone do, whatever random ones are chosen.
    let directed: Vec<Case> = all().into_iter().map(|named| named.1).collect();
    let judge = Judge::new(&directed);
    let members = families().into_iter().flat_map(|family| family.members);
    let told = |mistake: &Mistake| judge.telling(*mistake).is_some();
    let all = Mistake::ALL.iter().copied().chain(members);
    let untold: Vec<Mistake> = all.filter(|mistake| !told(mistake)).collect();
    assert_eq!(untold, []);
}
