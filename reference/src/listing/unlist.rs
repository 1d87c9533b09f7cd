//! A listed line read back. "A second entry must turn each listed line, without
//! its newline, back into the address and word it came from", or answer 12, "a
//! line that stands in no accepted file's listing". The line is taken apart
//! field by field: no line is written here to compare it with.

use super::form::{form, mnemonic, operand, target, Form};
use super::mistake::ListingMistake;
use super::slips;
use crate::line::MEMORY;
use crate::opcodes::sets::{line_of, LEGAL};
use crate::words::instruction;

/// The answer to a line that stands in no accepted file's listing.
pub const UNLISTED: u32 = 12;

/// Answer, address and word; the last two are 0 where the line is refused.
pub fn unlist(line: &[u8]) -> (u32, u32, u32) {
    unlist_with(line, None)
}

/// `unlist`, with a planted mistake.
pub fn unlist_with(line: &[u8], mistake: Option<ListingMistake>) -> (u32, u32, u32) {
    if mistake == Some(ListingMistake::AcceptsRefused) && line.starts_with(b"refused ") {
        return (0, 0, 0);
    }
    if mistake == Some(ListingMistake::RefusesLongest) && line.len() == 31 {
        return (UNLISTED, 0, 0);
    }
    match read(&slips::seen(line, mistake), mistake) {
        Some((address, word)) => (0, address, word),
        None if mistake == Some(ListingMistake::RefusedHasValues) => {
            let column = |from: usize| line.get(from..from + 8).and_then(hex).unwrap_or(0);
            (UNLISTED, column(0), column(9))
        }
        None => (UNLISTED, 0, 0),
    }
}

/// The fields that one space parts: three, and an operand or none.
struct Fields<'a> {
    address: u32,
    word: u32,
    name: &'a [u8],
    operand: Option<&'a [u8]>,
}

fn fields(line: &[u8]) -> Option<Fields<'_>> {
    let parts: Vec<&[u8]> = line.split(|byte| *byte == b' ').collect();
    let (first, operand) = match parts[..] {
        [address, word, name] => ([address, word, name], None),
        [address, word, name, operand] => ([address, word, name], Some(operand)),
        _ => return None,
    };
    let [address, word, name] = first;
    Some(Fields { address: hex(address)?, word: hex(word)?, name, operand })
}

fn read(line: &[u8], mistake: Option<ListingMistake>) -> Option<(u32, u32)> {
    let mut fields = fields(line)?;
    if mistake == Some(ListingMistake::AssemblesWord) {
        fields.word = assembled(&fields).unwrap_or(fields.word);
    }
    let stands = if fields.name == b"data" {
        let bare = fields.operand.is_none() || mistake == Some(ListingMistake::AcceptsDataOperand);
        bare && can_be_data(fields.address, fields.word, mistake)
    } else {
        is_text(&fields, mistake)
    };
    (stands && is_address(fields.address, mistake)).then_some((fields.address, fields.word))
}

/// A word's address in the run program's machine.
fn is_address(address: u32, mistake: Option<ListingMistake>) -> bool {
    let memory = MEMORY as u32;
    let inside = match mistake {
        Some(ListingMistake::AcceptsAddressAtM) => address <= memory,
        Some(ListingMistake::AcceptsAnyAddress) => true,
        Some(ListingMistake::RefusesLastAddress) => address < memory - 4,
        _ => address < memory,
    };
    let unit = match mistake {
        Some(ListingMistake::AcceptsEvenAddress) => 2,
        Some(ListingMistake::AcceptsOddAddress) => 1,
        _ => 4,
    };
    inside && address % unit == 0
}

/// An illegal opcode lists as data wherever it stands. A legal one must be at
/// or above data start, which refusal 11 keeps at 4 or more.
fn can_be_data(address: u32, word: u32, mistake: Option<ListingMistake>) -> bool {
    let illegal = mnemonic(word as u8, mistake).is_none();
    match mistake {
        Some(ListingMistake::AcceptsDataAtZero) => true,
        Some(ListingMistake::RefusesDataAtZero) => address >= 4,
        Some(ListingMistake::RefusesLegalData) => illegal,
        Some(ListingMistake::RefusesDataAtFour) => illegal || address >= 8,
        _ => illegal || address >= 4,
    }
}

/// Whether the name is the word's mnemonic, and the operand its operand.
fn is_text(fields: &Fields, mistake: Option<ListingMistake>) -> bool {
    let makes = |other: ListingMistake| mistake == Some(other);
    let code = fields.word as u8;
    let any_name = makes(ListingMistake::AcceptsIllegalName);
    let name = match mnemonic(code, mistake) {
        None if any_name => line_of(code).map(|line| line.name),
        name => name,
    };
    let Some(name) = name else { return false };
    let named = name.as_bytes() == fields.name || makes(ListingMistake::NameUncompared);
    named
        && match (form(code, mistake), fields.operand) {
            (Form::Bare, given) => given.is_none() || makes(ListingMistake::AcceptsOperandAnywhere),
            (_, None) => makes(ListingMistake::AcceptsMissingOperand),
            (Form::Number, Some(given)) => is_operand(given, fields.word, mistake),
            (Form::Target, Some(given)) => {
                let right = target(fields.address, fields.word, mistake);
                let free = makes(ListingMistake::TargetUncompared);
                hex(given).is_some_and(|found| found == right || free)
            }
        }
}

fn is_operand(given: &[u8], word: u32, mistake: Option<ListingMistake>) -> bool {
    let Some(found) = decimal(given) else { return false };
    let right = i64::from(operand(word, mistake));
    match mistake {
        Some(ListingMistake::OperandUncompared) => true,
        Some(ListingMistake::OperandByField) => (found - right) % (1 << 24) == 0,
        Some(ListingMistake::OperandByWord) => (found - right) % (1 << 32) == 0,
        _ => found == right,
    }
}

/// The word that mnemonic and operand would assemble to.
fn assembled(fields: &Fields) -> Option<u32> {
    let named = |code: &&u8| mnemonic(**code, None).is_some_and(|n| n.as_bytes() == fields.name);
    let code = *LEGAL.iter().find(named)?;
    let operand = fields.operand.unwrap_or(b"0");
    match form(code, None) {
        Form::Target => None,
        _ => Some(instruction(code, decimal(operand)? as u32)),
    }
}

/// Eight lower-case hexadecimal digits.
fn hex(text: &[u8]) -> Option<u32> {
    let digit = |byte: &u8| match byte {
        b'0'..=b'9' => Some(u32::from(byte - b'0')),
        b'a'..=b'f' => Some(u32::from(byte - b'a') + 10),
        _ => None,
    };
    if text.len() != 8 {
        return None;
    }
    text.iter().try_fold(0, |number, byte| Some((number << 4) | digit(byte)?))
}

/// A decimal number as the listing writes it: no `+`, no leading zeros, no `-0`.
/// One of more than 18 digits is no operand, and might not fit here.
fn decimal(text: &[u8]) -> Option<i64> {
    let (negative, digits) = match text {
        [b'-', digits @ ..] => (true, digits),
        digits => (false, digits),
    };
    let canonical = match digits {
        [] => false,
        [b'0'] => !negative,
        [first, ..] => *first != b'0' && digits.len() <= 18,
    };
    if !canonical || !digits.iter().all(u8::is_ascii_digit) {
        return None;
    }
    let magnitude = digits.iter().fold(0, |number, digit| 10 * number + i64::from(digit - b'0'));
    Some(if negative { -magnitude } else { magnitude })
}
