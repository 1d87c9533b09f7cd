//! Legal, illegal and privileged opcodes, derived from the table of 000 by the
//! words of document 01, "What is emulated" and "Opcodes", and of document 02's
//! item 7. Without a word on the mode the old one is meant.

use std::sync::LazyLock;

use super::table::{Line, LINES, PRIVILEGED_IN_SOURCE};

/// The words that make a line's opcode illegal.
const LEFT_OUT: [&str; 6] = ["f", "g", "rf", "rg", "double", "float"];

/// 000's section "math", by its first and last line.
const MATH: [&str; 2] = ["POW", "FMOD"];
/// The lines of that section that item 7 names.
const MATH_ADDED: [&str; 3] = ["FABS", "FLOR", "CEIL"];

/// The line of 000 for a byte, if it has one.
pub fn line_of(code: u8) -> Option<&'static Line> {
    LINES.iter().find(|line| line.code == code)
}

/// Whether a line names f, g, rf, rg, double or float. BIN's "(e.g. keyboard)"
/// is prose, not register g: document 01 defines BIN.
pub fn names_float(line: &Line) -> bool {
    let meaning = line.meaning.replace("e.g.", "");
    let mut words = meaning.split(|ch: char| !ch.is_ascii_alphanumeric());
    words.any(|word| LEFT_OUT.contains(&word))
}

/// Legal: a line in 000 that names no floating register or type.
pub fn is_legal(code: u8) -> bool {
    line_of(code).is_some_and(|line| !names_float(line))
}

/// Added by document 02's item 7: every line that document 01 leaves out, but of
/// the section "math" only the three that are named.
pub fn is_floating(code: u8) -> bool {
    let Some(line) = line_of(code).filter(|line| names_float(line)) else { return false };
    let [first, last] = MATH.map(code_of);
    !(first..=last).contains(&code) || MATH_ADDED.contains(&line.name)
}

/// Legal in a mode: the old one, or that with doubles.
pub fn is_legal_in(code: u8, mode: bool) -> bool {
    is_legal(code) || (mode && is_floating(code))
}

/// Privileged: the source's fifteen, and SSP by document 01.
pub fn is_privileged(code: u8) -> bool {
    line_of(code)
        .is_some_and(|line| line.name == "SSP" || PRIVILEGED_IN_SOURCE.contains(&line.name))
}

/// The mnemonic of a byte, or `?` for a byte without a line.
pub fn name_of(code: u8) -> &'static str {
    line_of(code).map_or("?", |line| line.name)
}

/// The byte of a mnemonic. Panics on a name that 000 doesn't have.
pub fn code_of(name: &str) -> u8 {
    let line = LINES.iter().find(|line| line.name == name);
    line.unwrap_or_else(|| panic!("no opcode {name}")).code
}

/// All legal bytes in rising order.
pub static LEGAL: LazyLock<Vec<u8>> = LazyLock::new(|| bytes_with(is_legal));
/// All illegal bytes in rising order.
pub static ILLEGAL: LazyLock<Vec<u8>> = LazyLock::new(|| bytes_with(|code| !is_legal(code)));
/// All bytes that the mode with doubles adds, in rising order.
pub static FLOATING: LazyLock<Vec<u8>> = LazyLock::new(|| bytes_with(is_floating));

/// All bytes that are legal in the mode with doubles, in rising order.
pub static LEGAL_WITH_DOUBLES: LazyLock<Vec<u8>> =
    LazyLock::new(|| bytes_with(|code| is_legal_in(code, true)));

/// All bytes that are illegal in both modes, in rising order.
pub static ILLEGAL_WITH_DOUBLES: LazyLock<Vec<u8>> =
    LazyLock::new(|| bytes_with(|code| !is_legal_in(code, true)));

/// All privileged bytes in rising order.
pub static PRIVILEGED: LazyLock<Vec<u8>> = LazyLock::new(|| bytes_with(is_privileged));

fn bytes_with(holds: fn(u8) -> bool) -> Vec<u8> {
    (0..=255).filter(|code| holds(*code)).collect()
}

#[cfg(test)]
mod tests {
    use super::*;

    #[test]
    fn counts() {
        assert_eq!(LEGAL.len(), 137);
        assert_eq!(ILLEGAL.len(), 119);
        assert_eq!(PRIVILEGED.len(), 16);
        assert_eq!(FLOATING.len(), 46);
        assert_eq!(LEGAL_WITH_DOUBLES.len(), 183);
        assert_eq!(ILLEGAL_WITH_DOUBLES.len(), 73);
    }

    #[test]
    fn illegal_by_name_and_without_a_line() {
        assert_eq!(LINES.iter().filter(|line| names_float(line)).count(), 63);
        assert_eq!((0..=255).filter(|code| line_of(*code).is_none()).count(), 56);
    }

    #[test]
    fn every_byte_has_at_most_one_line() {
        assert!(LINES.windows(2).all(|pair| pair[0].code < pair[1].code));
    }

    #[test]
    fn privileged_opcodes_are_legal() {
        assert!(PRIVILEGED.iter().all(|code| is_legal(*code)));
    }
}
