//! The random executables: the same again, rich enough, and written by the
//! commands as they are.

use reference::coverage::{Coverage, Due};
use reference::line::{line, BUDGET, CONSOLE, MEMORY};
use reference::load::{load, HEADER, MAGIC};
use reference::machine::Machine;
use reference::random::executables::random_file;
use reference::words::get;
use std::collections::BTreeMap;
use std::process::Command;
use std::sync::LazyLock;

const SEED: u64 = 1;
const COUNT: u64 = 1500;

static FILES: LazyLock<Vec<Vec<u8>>> =
    LazyLock::new(|| (0..COUNT).map(|number| random_file(SEED, number)).collect());

/// The machine after each accepted file, as the run program runs it.
fn accepted() -> impl Iterator<Item = Machine> {
    FILES.iter().filter_map(|file| {
        let mut memory = vec![0; MEMORY];
        let (answer, record) = load(&mut memory, file);
        let mut machine = Machine::buffered(memory, vec![0; CONSOLE], &record);
        machine.run(&[], BUDGET);
        (answer == 0).then_some(machine)
    })
}

#[test]
fn every_kind_of_line_comes_often() {
    let mut kinds = BTreeMap::new();
    for file in FILES.iter() {
        let line = line(file);
        let kind: Vec<&str> = line.split(' ').take(2).collect();
        *kinds.entry(kind.join(" ")).or_insert(0) += 1;
    }
    let refused = (7..12).map(|number| format!("refused {number}"));
    let mut names: Vec<String> = refused.chain((0..4).map(|stop| format!("stop {stop}"))).collect();
    names.sort();
    assert!(kinds.keys().eq(&names), "{kinds:?}");
    assert!(kinds.values().all(|count| *count > 15), "{kinds:?}");
}

#[test]
fn accepted_ones_reach_traps_paging_and_a_full_console() {
    let mut coverage = Coverage::default();
    let mut full = 0;
    for machine in accepted() {
        coverage.add(&machine.coverage);
        full += usize::from(machine.regs.written == CONSOLE as u64);
    }
    // Without keys there is no FKEYBD and no mark of one, and no program waits
    // with interrupts masked; a few opcodes may not have faulted. Each cause is
    // delivered, but not by each access, and not before each stop and trap. Paging
    // comes on by SPAG, so that no run is of those that the second bound on walks
    // speaks of, nor without walks. A load gives the old mode.
    let missing = coverage.missing(Due::Always, &[]);
    let by_place = |kind: &str| {
        ["stopped with", "cause kept"].iter().any(|start| kind.starts_with(start))
            || kind.contains(" refused: ")
    };
    let by_spag = |kind: &str| kind == "runs with hits alone" || kind.ends_with("second bound");
    let out = |kind: &str| {
        let kinds = kind.ends_with("faulted") || kind.starts_with("key mark");
        kinds || by_place(kind) || by_spag(kind) || kind.contains("doubles")
    };
    let missing: Vec<_> = missing.iter().filter(|kind| !out(kind)).collect();
    assert_eq!(
        missing,
        ["trap 2", "trap 18", "timer mark kept while waiting", "both marks with iena = 1"]
    );
    assert!(full > 20, "{full}");
}

/// The refusals that a file would have if each were the only one.
fn reasons(file: &[u8]) -> Vec<u32> {
    let mut reasons = Vec::new();
    if file.len() < HEADER {
        reasons.push(7);
    }
    if file.len() < 4 || get(file, 0, 4) != MAGIC {
        reasons.push(8);
    }
    if file.len() >= HEADER {
        let body = (file.len() - HEADER) as u64;
        let [entry, start] = [8, 12].map(|at| u64::from(get(file, at, 4)));
        let wrong = [body == 0 || body > MEMORY as u64, start > body];
        reasons.extend([9, 10].iter().zip(wrong).filter(|pair| pair.1).map(|pair| pair.0));
        if entry % 4 != 0 || entry + 4 > start {
            reasons.push(11);
        }
    }
    reasons
}

#[test]
fn every_two_refusals_come_together() {
    // 9 to 11 need a whole header.
    let pairs = [(7, 8), (8, 9), (8, 10), (8, 11), (9, 10), (9, 11), (10, 11)];
    let lists: Vec<Vec<u32>> = FILES.iter().map(|file| reasons(file)).collect();
    for (low, high) in pairs {
        let together = lists.iter().filter(|list| list.contains(&low) && list.contains(&high));
        assert!(together.count() > 5, "{low} and {high}");
    }
    for (file, list) in FILES.iter().zip(&lists) {
        let refused = list.first().map(|number| format!("refused {number}"));
        assert!(refused.is_none_or(|text| text == line(file)));
    }
}

#[test]
fn lengths_reach_the_edges_and_far_beyond() {
    let count = |holds: &dyn Fn(usize) -> bool| FILES.iter().filter(|f| holds(f.len())).count();
    for length in [0, 15, 16, HEADER + MEMORY - 1, HEADER + MEMORY, HEADER + MEMORY + 1] {
        assert!(count(&|found| found == length) > 0, "{length}");
    }
    assert!(count(&|length| length < HEADER) > 20);
    assert!(count(&|length| length > 100_000) > 20);
    assert!(count(&|length| length > 300_000) > 5);
}

fn printed(words: &[&str]) -> Vec<u8> {
    let output = Command::new(env!("CARGO_BIN_EXE_reference")).args(words).output().unwrap();
    assert!(output.status.success());
    output.stdout
}

#[test]
fn the_commands_write_the_same_files() {
    let mut list = Vec::new();
    for number in 7..10 {
        let file = random_file(3, number);
        assert_eq!(printed(&["random-file", "--seed", "3", "--number", &number.to_string()]), file);
        list.extend((file.len() as u32).to_le_bytes());
        list.extend(file);
    }
    assert_eq!(printed(&["random-files", "--seed", "3", "--first", "7", "--count", "3"]), list);
    assert_ne!(random_file(3, 7), random_file(4, 7));
}
