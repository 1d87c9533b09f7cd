//! What must come of the tables of operations.

mod common;
use common::after;
use reference::directed::tables::{ARITHMETIC, BRANCHES, COMPARED, COMPARISONS};
use reference::directed::tables::{NARROW, NOT_TAKEN, OPERANDS, ROWS};

const fn minus(number: i32) -> u32 {
    -number as u32
}

/// By operation, in the order of `OPERANDS`: 7 and 3, -7 and 2, 7 and -2,
/// -2^31 and -1, -2^31 + 1 and 33.
#[rustfmt::skip]
const RESULTS: [(&str, [u32; 5]); 13] = [
    ("ADD", [10, minus(5), 5, 0x7fff_ffff, 0x8000_0022]),
    ("SUB", [4, minus(9), 9, 0x8000_0001, 0x7fff_ffe0]),
    ("MUL", [21, minus(14), minus(14), 0x8000_0000, 0x8000_0021]),
    ("DIV", [2, minus(3), minus(3), 0x8000_0000, minus(65_075_262)]),
    ("DVU", [2, 0x7fff_fffc, 0, 0, 65_075_262]),
    ("MOD", [1, minus(1), 1, 0, minus(1)]),
    ("MDU", [1, 1, 7, 0x8000_0000, 3]),
    ("AND", [3, 0, 6, 0x8000_0000, 1]),
    ("OR", [7, 0xffff_fffb, 0xffff_ffff, 0xffff_ffff, 0x8000_0021]),
    ("XOR", [4, 0xffff_fffb, 0xffff_fff9, 0x7fff_ffff, 0x8000_0020]),
    ("SHL", [56, minus(28), 0xc000_0000, 0, 2]),
    ("SHR", [0, minus(2), 0, 0xffff_ffff, 0xc000_0000]),
    ("SRU", [0, 0x3fff_fffe, 0, 1, 0x4000_0000]),
];

#[test]
fn arithmetic_from_each_source() {
    assert_eq!(RESULTS.map(|row| row.0), ARITHMETIC);
    let expected = RESULTS.map(|row| row.1).concat();
    for source in ["b", "imm", "a word of the stack"] {
        let after = after(&format!("arithmetic with {source}"));
        assert_eq!(after.rows(ARITHMETIC.len() * OPERANDS.len()), expected, "{source}");
    }
}

/// By comparison, in the order of `COMPARED`: 5 and 5, 1 and 2, 2 and 1,
/// -2^31 and 1, 1 and -2^31, 0 and 1, 1 and 0.
#[rustfmt::skip]
const HOLDS: [[u32; 7]; 6] = [
    [1, 0, 0, 0, 0, 0, 0],
    [0, 1, 1, 1, 1, 1, 1],
    [0, 1, 0, 1, 0, 1, 0],
    [0, 1, 0, 0, 1, 1, 0],
    [1, 0, 1, 0, 1, 0, 1],
    [1, 0, 1, 1, 0, 0, 1],
];
const IS_ZERO: [u32; 7] = [0, 0, 0, 0, 0, 1, 0];

#[test]
fn comparisons() {
    let after = after("comparisons");
    assert_eq!(after.rows(COMPARISONS.len() * COMPARED.len()), HOLDS.concat());
}

/// A branch that is taken leaves a in its row.
#[test]
fn branches() {
    let after = after("branches");
    let holds = [&HOLDS[..], &[IS_ZERO, IS_ZERO.map(|zero| 1 - zero)]].concat().concat();
    let operands = COMPARED.iter().cycle();
    let expected: Vec<u32> = holds
        .iter()
        .zip(operands)
        .map(|(holds, (a, _))| if *holds == 1 { *a } else { NOT_TAKEN })
        .collect();
    assert_eq!(after.rows(BRANCHES.len() * COMPARED.len()), expected);
}

/// S and C forms extend the sign, H and B don't.
#[test]
fn extension() {
    let forms = |s: u32, h: u32, c: u32, b: u32| [s, h, c, b];
    for (name, forms) in [
        ("extension", forms(0xffff_9181, 0x9181, 0xffff_ff91, 0x91)),
        ("extension of positive numbers", forms(0x7f12, 0x7f12, 0x7f, 0x7f)),
    ] {
        let after = after(name);
        for (nth, load) in NARROW.iter().enumerate() {
            let pushed = after.word(ROWS - 8 * (nth as u32 + 1));
            assert_eq!(pushed, forms[nth % 4], "{name}: {load}");
        }
    }
}
