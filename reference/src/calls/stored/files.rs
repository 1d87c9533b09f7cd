//! Lines of listings.

use super::{Named, IMMS};
use crate::calls::Call;
use crate::line_files;
use crate::load::{executable, HEADER};
use crate::opcodes::sets::{code_of, name_of, ILLEGAL, LEGAL};
use crate::words::instruction;
use crate::worked::op;

/// Jumps and branches, whose line shows their target.
const WITH_TARGET: [&str; 10] =
    ["JMP", "JSR", "BZ", "BNZ", "BE", "BNE", "BLT", "BLTU", "BGE", "BGEU"];

pub fn calls() -> Vec<Named> {
    let parts = [worked(), every_opcode(), illegal(), targets(), data_starts(), short_words()];
    [parts.concat(), headers(), run_files(), numbers(), long()].concat()
}

fn bytes(words: &[u32]) -> Vec<u8> {
    words.iter().flat_map(|word| word.to_le_bytes()).collect()
}

/// The whole listing, and the number after its last.
fn whole(name: impl Into<String>, file: &[u8]) -> Named {
    let words = file.len().saturating_sub(HEADER).div_ceil(4);
    (name.into(), Call::first_lines(words + 1, file))
}

/// A program at address 0, all of it text.
fn text(words: &[u32]) -> Vec<u8> {
    executable(0, 0, 4 * words.len() as u32, &bytes(words))
}

/// P1 and HALT, a target that wraps, ignored bits, P5's JSR at 0x14, floating
/// opcodes.
#[rustfmt::skip]
fn worked() -> Vec<Named> {
    let words = [
        op("LI", 0), op("LHI", 0x92_7c00), op("HALT", 0), 0x8000_0003, 0x0000_129b, 0xffff_e805,
        op("LLD", 1), op("ADDF", 0), op("BZF", -4), op("SQRT", 2),
    ];
    vec![whole("worked lines", &text(&words))]
}

/// As text at rising addresses, then twice as data.
fn every_opcode() -> Vec<Named> {
    let file = |code: u8| {
        let mut words = vec![op("NOP", 0); usize::from(code % 4)];
        words.extend(IMMS.map(|imm| instruction(code, imm as u32)));
        let data_start = 4 * words.len() as u32;
        words.extend([1, -2].map(|imm| instruction(code, imm as u32)));
        executable(0, 0, data_start, &bytes(&words))
    };
    LEGAL.iter().map(|code| whole(name_of(*code), &file(*code))).collect()
}

/// Every illegal byte as text, its other bits clear and set; half of them once
/// more as data.
fn illegal() -> Vec<Named> {
    let clear: Vec<u32> = ILLEGAL.iter().map(|code| u32::from(*code)).collect();
    let set: Vec<u32> = clear.iter().map(|word| word | 0xffff_ff00).collect();
    let half = executable(0, 0, 4 * 60, &bytes(&clear));
    vec![
        whole("illegal bytes as text", &text(&clear)),
        whole("illegal bytes, all else set", &text(&set)),
        ("illegal bytes as data".to_string(), Call::Lines { first: 58, count: 4, file: half }),
    ]
}

/// To itself, back to 0 and below, off a word, forward.
fn targets() -> Vec<Named> {
    let imms = [-4, -28, -32, 1, 2, 3, 0x7ffc];
    let words = |name: &str| imms.map(|imm| instruction(code_of(name), imm as u32));
    WITH_TARGET.iter().map(|name| whole(format!("{name} targets"), &text(&words(name)))).collect()
}

/// From 4 to the body's end, on a word and off it.
fn data_starts() -> Vec<Named> {
    let body = bytes(&[op("LI", 1), op("JMP", 2), op("NOP", 3)]);
    let starting =
        |start: u32| whole(format!("data start {start}"), &executable(0, 0, start, &body));
    (4..=12).map(starting).collect()
}

/// Bodies of 1 to 9 bytes, all text, or all but the first word data. Below 4
/// bytes no data start passes.
fn short_words() -> Vec<Named> {
    let body = [0x23, 0x81, 0x92, 0xa3, 0x54, 0xb5, 0xc6, 0xd7, 0x69];
    let cut = |length: usize, start: usize| executable(0, 0, start as u32, &body[..length]);
    let mut list = Vec::new();
    for length in 1..=body.len() {
        list.push(whole(format!("{length} bytes of text"), &cut(length, length)));
        list.push(whole(format!("{length} bytes, data from 4"), &cut(length, 4)));
    }
    list
}

/// bss and entry don't show; each byte of the magic counts.
fn headers() -> Vec<Named> {
    let body = bytes(&[op("LI", 1), op("HALT", 0), 7, 8]);
    let mut list = vec![
        whole("bss 2^32 - 1", &executable(u32::MAX, 0, 8, &body)),
        whole("entry 4", &executable(0, 4, 8, &body)),
    ];
    for at in 0..4 {
        let mut file = executable(0, 0, 8, &body);
        file[at] ^= 0x10;
        list.push(whole(format!("byte {at} of the magic"), &file));
    }
    list
}

/// What the run program's lines are asked for, but for the long ones: each
/// refusal, two at once, the examples.
fn run_files() -> Vec<Named> {
    let files = line_files::files().into_iter().filter(|(_, file)| file.len() < 1000);
    files.map(|(name, file)| whole(name, &file)).collect()
}

/// Numbers past the end, and where a number or an address could wrap.
fn numbers() -> Vec<Named> {
    let good = text(&[op("LI", 0), op("LHI", 0x92_7c00), op("HALT", 0)]);
    let refused = executable(0, 1, 12, &good[HEADER..]);
    let starts = [
        (1, 0),
        (1, 1),
        (3, 2),
        (8192, 2),
        (1 << 30, 3),
        (1 << 31, 3),
        (1 << 32, 3),
        ((1 << 32) - 1, 2),
        (1 << 61, 3),
        (1 << 62, 3),
        (1 << 63, 3),
        (u64::MAX, 2),
        (u64::MAX - 1, 5),
    ];
    let mut list = Vec::new();
    for (first, count) in starts {
        for (name, file) in [("good", &good), ("refused", &refused)] {
            let call = Call::Lines { first, count, file: file.clone() };
            list.push((format!("{name}, {count} from {first}"), call));
        }
    }
    list
}

/// A body of so many bytes in which every opcode stands with many operands.
fn long_body(length: usize) -> Vec<u8> {
    let imm = |turn: u32| IMMS[turn as usize % 5].wrapping_add(turn as i32 / 5) as u32;
    let words: Vec<u32> = (0..8200).map(|nth| instruction(nth as u8, imm(nth / 256))).collect();
    bytes(&words)[..length].to_vec()
}

/// Bodies as long as memory, a byte less and a byte more.
fn long() -> Vec<Named> {
    let lines = |name: &str, first, count, (length, start)| {
        let file = executable(0, 0, start, &long_body(length));
        (name.to_string(), Call::Lines { first, count, file })
    };
    vec![
        lines("body of M, its end", 8192 - 256, 258, (32_768, 32_768)),
        lines("body of M and first lines", u64::MAX - 1, 260, (32_768, 0x3f9)),
        lines("body of M less 1", 8190, 3, (32_767, 0x7ffc)),
        lines("body of M and 1", 0, 2, (32_769, 32_768)),
    ]
}
