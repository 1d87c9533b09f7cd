//! Random calls. Everything follows from a seed and a call's number.

use super::executables::random_file;
use super::machines::{random_restore, random_save};
use super::rng::Rng;
use crate::calls::near::{near_misses, Listed};
use crate::calls::{Call, MAX_CALL, MAX_LINES};
use crate::line::MEMORY;
use crate::load::{executable, HEADER};
use crate::opcodes::sets::{ILLEGAL, LEGAL};
use crate::words::instruction;

/// Bytes of a call of lines before its file.
const FIELDS: usize = 24;

/// Call `number` of the list with this seed.
pub fn random_call(seed: u64, number: u64) -> Call {
    let rng = &mut Rng::for_case(seed, number);
    match rng.weighted(&[30, 42, 12, 16]) {
        0 => random_lines(rng, number),
        1 => Call::Read(random_line(rng).1),
        2 => random_save(rng, number).into(),
        _ => random_restore(rng, number).into(),
    }
}

/// Lines of the listing of some file.
fn random_lines(rng: &mut Rng, number: u64) -> Call {
    let mut file = if rng.percent(12) {
        let seed = rng.next64();
        random_file(seed, number)
    } else {
        listed_file(rng)
    };
    // A longer body is refused with 9 or less, as it is when it is cut here.
    file.truncate(MAX_CALL - FIELDS);
    let (first, count) = range(rng, file.len().saturating_sub(HEADER).div_ceil(4) as u64);
    Call::Lines { first, count, file }
}

/// Which lines of a listing are asked for: all and one more, some at its
/// beginning or end, past it, or where numbers wrap.
fn range(rng: &mut Rng, lines: u64) -> (u64, u32) {
    let few = rng.below(12);
    let near = |rng: &mut Rng, number: u64| number.wrapping_add(rng.between(-6, 6) as u64);
    match rng.weighted(&[6, 3, 4, 2, 2, 2]) {
        0 if lines < 300 || rng.percent(3) => (0, (lines + 1).min(MAX_LINES as u64) as u32),
        0 | 1 => (u64::from(rng.below(lines as u32 + 1)), few),
        2 => (near(rng, lines), few),
        3 => (near(rng, 0), few),
        4 => {
            let edge = rng.pick(&[16, 29, 30, 31, 32, 33, 60, 61, 62, 63]);
            (near(rng, 1 << edge), few)
        }
        _ => (rng.next64(), few),
    }
}

/// A body of words with all opcodes: a few bytes, some hundreds, or about M;
/// data start and entry mostly such that they pass.
fn listed_file(rng: &mut Rng) -> Vec<u8> {
    let length = match rng.weighted(&[20, 40, 1]) {
        0 => rng.below(20),
        1 => 4 + rng.below(300),
        _ => MEMORY as u32 - 8 + rng.below(10),
    };
    let words = (0..length.div_ceil(4)).map(|nth| random_word(rng, 4 * nth));
    let mut body: Vec<u8> = words.flat_map(u32::to_le_bytes).collect();
    body.truncate(length as usize);
    let anywhere = rng.below(length + 2);
    let fitting = 4 + rng.below(length.saturating_sub(3).max(1));
    let start = rng.pick(&[4, 5, 6, 7, length, fitting, fitting, fitting, fitting, anywhere]);
    let entry = if rng.percent(95) { 0 } else { rng.below(start + 8) };
    executable(rng.word(), entry, start, &body)
}

/// A word, mostly of a legal opcode with an operand at an edge.
fn random_word(rng: &mut Rng, address: u32) -> u32 {
    let code = match rng.weighted(&[12, 3, 2]) {
        0 => rng.pick(&LEGAL),
        1 => rng.pick(&[0x03, 0x05, 0x84, 0x86, 0x88, 0x8a, 0x8c, 0x8d, 0x8f, 0x90]),
        _ => rng.pick(&ILLEGAL),
    };
    let near = rng.between(-20, 20) as u32;
    let power = 10u32.pow(rng.below(8));
    let imm = match rng.weighted(&[5, 3, 3, 3, 2, 2, 2, 3]) {
        0 => 0,
        1 => near,
        2 => rng.pick(&[1, u32::MAX, 0x7f_ffff, 0x80_0000]),
        3 => power.wrapping_add(near),
        4 => power.wrapping_neg().wrapping_add(near),
        // A target near 0, which may wrap, or near M.
        5 => near.wrapping_sub(address),
        6 => near.wrapping_sub(address).wrapping_add(MEMORY as u32),
        _ => rng.word(),
    };
    instruction(code, imm)
}

fn random_listed(rng: &mut Rng) -> Listed {
    let anywhere = 4 * rng.below(MEMORY as u32 / 4);
    let address = rng.pick(&[0, 0, 4, 8, 0xc, 0x14, 0x7ff8, 0x7ffc, anywhere, anywhere, anywhere]);
    let word = random_word(rng, address);
    Listed { address, word, data: address > 0 && rng.percent(20) }
}

/// A line and what kind it is: listed, nearly listed, or something else.
pub fn random_line(rng: &mut Rng) -> (&'static str, Vec<u8>) {
    let listed = random_listed(rng);
    let line = listed.line().into_bytes();
    match rng.weighted(&[25, 40, 25, 10]) {
        0 if listed.data => ("listed as data", line),
        0 => ("listed as text", line),
        1 => rng.pick(&near_misses(listed)),
        2 => edited(rng, line),
        _ => unlike(rng),
    }
}

/// A byte that lines have, or any.
fn random_byte(rng: &mut Rng) -> u8 {
    let any = rng.word() as u8;
    let common = rng.pick(b"0123456789abcdefABCDEF -+\n\r\tdataLHINOPJMRSBxX");
    if rng.percent(80) {
        common
    } else {
        any
    }
}

fn edited(rng: &mut Rng, mut line: Vec<u8>) -> (&'static str, Vec<u8>) {
    let at = rng.below(line.len() as u32) as usize;
    let byte = random_byte(rng);
    match rng.below(6) {
        0 => {
            line[at] = byte;
            ("a byte changed", line)
        }
        1 => {
            line[at] ^= 1 << rng.below(8);
            ("a bit changed", line)
        }
        2 => {
            line.remove(at);
            ("a byte removed", line)
        }
        3 => {
            line.insert(at, byte);
            ("a byte added", line)
        }
        4 => {
            let other = rng.below(line.len() as u32) as usize;
            line.swap(at, other);
            ("two bytes exchanged", line)
        }
        _ => {
            line.truncate(at);
            ("cut", line)
        }
    }
}

/// Nothing that looks like a line of a listing, or only by its bytes.
fn unlike(rng: &mut Rng) -> (&'static str, Vec<u8>) {
    let long = 100 + rng.below(900);
    let length = rng.pick(&[0, 1, 17, 18, 22, 30, 31, 32, 33, 63, 64, 65, long]) as usize;
    match rng.below(5) {
        0 => ("refused", format!("refused {}", rng.below(14)).into_bytes()),
        1 => ("empty", Vec::new()),
        2 => ("random bytes", (0..length).map(|_| rng.word() as u8).collect()),
        3 => ("random text", (0..length).map(|_| random_byte(rng)).collect()),
        _ => ("one byte often", vec![random_byte(rng); length]),
    }
}
