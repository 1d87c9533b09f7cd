//! The executables of the run program's line: what must come of each, worked
//! out by hand, and what they tell apart.

use reference::line::{line, line_by, Setup};
use reference::line_files::{files, read, stored, write};
use reference::types::Key;

/// The lines in the order of the list, each name with its line.
const LINES: [(&str, &str); 62] = [
    ("empty", "refused 7"),
    ("1 byte", "refused 7"),
    ("15 bytes", "refused 7"),
    ("15 bytes, 7 before 8", "refused 7"),
    ("magic, a low bit", "refused 8"),
    ("magic, its last byte", "refused 8"),
    ("magic, the highest byte first", "refused 8"),
    ("20 zeros", "refused 8"),
    ("8 before 9, empty body", "refused 8"),
    ("8 before 9, body too long", "refused 8"),
    ("8 before 10", "refused 8"),
    ("8 before 11", "refused 8"),
    ("16 bytes", "refused 9"),
    ("9 before 10", "refused 9"),
    ("9 before 11", "refused 9"),
    ("body of M and 1", "refused 9"),
    ("body of M and 2", "refused 9"),
    ("100,000 bytes", "refused 9"),
    ("accepted after a long one", "stop 1 steps 1 a 0 b 0 c 0 sp 32768 pc 4"),
    ("17 bytes, data start 2", "refused 10"),
    ("data start above the body", "refused 10"),
    ("data start 2^32 - 1", "refused 10"),
    ("10 before 11, entry 2", "refused 10"),
    ("10 before 11, entry 8", "refused 10"),
    ("data start 5 in a body of 7", "stop 1 steps 1 a 0 b 0 c 0 sp 32768 pc 4"),
    ("17 bytes, data start 1", "refused 11"),
    ("entry 1", "refused 11"),
    ("entry 2", "refused 11"),
    ("entry 4, data start 4", "refused 11"),
    ("entry 4, data start 7", "refused 11"),
    ("entry 2^32 - 4", "refused 11"),
    ("entry 4", "stop 1 steps 2 a 7 b 0 c 0 sp 32768 pc 12"),
    ("running: IDLE, no key", "stop 0 steps 100000 a 0 b 0 c 0 sp 32768 pc 8"),
    ("halted", "stop 1 steps 1 a 0 b 0 c 0 sp 32768 pc 4"),
    ("masked: TRAP", "stop 2 steps 2 a 5 b 0 c 0 sp 32768 pc 4"),
    ("masked: opcode 0xff", "stop 2 steps 2 a 0 b 0 c 0 sp 32768 pc 4"),
    ("masked: a read at M", "stop 2 steps 2 a 32768 b 0 c 0 sp 32768 pc 4"),
    ("masked: division by 0", "stop 2 steps 2 a 6 b 0 c 0 sp 32768 pc 4"),
    ("no frame: the first slot", "stop 3 steps 3 a 0 b 0 c 0 sp 32776 pc 8"),
    ("no frame: the second slot", "stop 3 steps 3 a 0 b 0 c 0 sp 8 pc 8"),
    ("100,000 steps", "stop 1 steps 100000 a 0 b 0 c 0 sp 32768 pc 16"),
    ("100,001 steps", "stop 0 steps 100000 a 0 b 0 c 0 sp 32768 pc 16"),
    ("4,096 console bytes", "stop 1 steps 24579 a 0 b 0 c 1 sp 32768 pc 36"),
    ("4,097 console bytes", "stop 1 steps 24585 a 0 b 0 c 4294967295 sp 32768 pc 36"),
    ("no key", "stop 1 steps 2 a 4294967295 b 0 c 0 sp 32768 pc 8"),
    ("M", "stop 1 steps 2 a 32768 b 0 c 0 sp 32768 pc 8"),
    ("body of M", "stop 1 steps 2 a 5 b 0 c 0 sp 32768 pc 32768"),
    ("zeros after the body", "stop 1 steps 2 a 0 b 0 c 0 sp 32768 pc 8"),
    ("bss", "stop 1 steps 1 a 0 b 0 c 0 sp 32768 pc 4"),
    (
        "the longest numbers",
        "stop 2 steps 6 a 4294967295 b 4294967295 c 4294967295 sp 4294967288 pc 4294967292",
    ),
    ("zeros in numbers", "stop 1 steps 5 a 1000000 b 10 c 100 sp 32768 pc 20"),
    ("rate.v9", "stop 1 steps 3 a 9600000 b 0 c 0 sp 32768 pc 12"),
    ("console.v9", "stop 1 steps 7 a 1 b 10 c 0 sp 32768 pc 28"),
    ("paging.v9", "stop 1 steps 33 a 42 b 8192 c 0 sp 32768 pc 92"),
    ("trap.v9", "stop 1 steps 26 a 108 b 21 c 0 sp 32752 pc 76"),
    ("feed.v9", "stop 1 steps 48 a 1 b 10 c 9600 sp 32768 pc 36"),
    ("ticks.v9", "stop 1 steps 515 a 5 b 5 c 0 sp 32752 pc 92"),
    ("panel.v9", "stop 1 steps 28 a 1 b 57 c 0 sp 32768 pc 76"),
    ("recipe.v9", "stop 1 steps 67 a 32760 b 24 c 0 sp 32744 pc 140"),
    ("endless.v9", "stop 0 steps 100000 a 0 b 0 c 0 sp 32768 pc 0"),
    ("ration.v9", "stop 0 steps 100000 a 37494 b 60000 c 0 sp 32768 pc 64"),
    ("refused.v9", "refused 11"),
];

#[test]
fn every_line() {
    let files = files();
    assert_eq!(files.len(), LINES.len());
    for ((name, file), (named, expected)) in files.iter().zip(LINES) {
        assert_eq!((*name, line(file).as_str()), (named, expected));
    }
}

#[test]
fn lengths_that_names_promise() {
    let length = |name| files().iter().find(|file| file.0 == name).unwrap().1.len();
    let promised = [("empty", 0), ("15 bytes", 15), ("16 bytes", 16), ("100,000 bytes", 100_000)];
    for (name, expected) in promised {
        assert_eq!(length(name), expected);
    }
    assert_eq!(length("17 bytes, data start 1"), 17);
    assert_eq!(length("17 bytes, data start 2"), 17);
    assert_eq!(length("body of M"), 16 + 32_768);
    assert_eq!(length("body of M and 1"), 16 + 32_769);
}

#[test]
fn the_examples_page() {
    let page = include_str!("../../examples/README.md");
    // A saved machine is no executable: `tests/flow.rs` has its line.
    let executable = |row: &&str| row.starts_with("| `") && row.contains(".v9` |");
    let rows = page.lines().filter(executable);
    let told: Vec<(&str, &str)> = rows
        .map(|row| {
            let mut quoted = row.split('`').skip(1).step_by(2);
            (quoted.next().unwrap(), quoted.last().unwrap())
        })
        .collect();
    assert_eq!(told, LINES[LINES.len() - 11..]);
}

#[test]
fn a_list_comes_back() {
    let files = files();
    let bytes = write(&files);
    let given: Vec<&[u8]> = files.iter().map(|(_, file)| &file[..]).collect();
    assert_eq!(read(&bytes), given);
    assert_eq!(read(&[]), [&[]; 0]);
    // A file that is cut off, in its length or its bytes, ends the list.
    assert_eq!(read(&stored()), given);
    assert_eq!(read(&[&bytes[..], &[4, 0, 0]].concat()), given);
    assert_eq!(read(&[&bytes[..], &[0, 0, 0, 1]].concat()), given);
}

#[test]
fn other_machines_are_told_apart() {
    let right = Setup::default();
    let others = [
        Setup { memory: 28_672, ..right.clone() },
        Setup { memory: 36_864, ..right.clone() },
        Setup { console: 4_095, ..right.clone() },
        Setup { console: 4_097, ..right.clone() },
        Setup { budget: 99_999, ..right.clone() },
        Setup { budget: 100_001, ..right.clone() },
        Setup { keys: vec![Key { step: 0, byte: 65 }], ..right },
    ];
    for (number, other) in others.iter().enumerate() {
        let differs = files().iter().any(|(_, file)| line(file) != line_by(other, file));
        assert!(differs, "machine {number} is not told apart");
    }
}
