//! What a line shows of a legal opcode: its mnemonic, and its operand in one of
//! three forms, derived from the lines of 000.

use super::mistake::{ListingMistake, TargetSlip};
use crate::line::MEMORY;
use crate::opcodes::sets::{is_legal, line_of, name_of};
use crate::opcodes::table::Line;
use crate::words::{field, immediate};

/// How an operand is listed.
#[derive(Clone, Copy, Debug, PartialEq, Eq)]
pub enum Form {
    /// Not at all.
    Bare,
    /// "Signed operand in decimal where 000 writes i or imme".
    Number,
    /// "But for JMP, JSR and branches only the target".
    Target,
}

impl Form {
    pub const ALL: [Form; 3] = [Form::Bare, Form::Number, Form::Target];
}

/// The form by a line of 000.
pub fn form_of(line: &Line) -> Form {
    if matches!(line.name, "JMP" | "JSR") || is_branch(line) {
        Form::Target
    } else if line.operand || line.meaning.contains("imme") {
        Form::Number
    } else {
        Form::Bare
    }
}

/// 000's "cond branch" lines ask something in brackets. STI and TIME ask too,
/// in words.
fn is_branch(line: &Line) -> bool {
    line.meaning.starts_with("if (")
}

/// The mnemonic of a legal opcode; `None` is an illegal one.
pub fn mnemonic(code: u8, mistake: Option<ListingMistake>) -> Option<&'static str> {
    match mistake {
        Some(ListingMistake::NamedAs(planted, other)) if planted == code => Some(name_of(other)),
        Some(ListingMistake::LegalAsIllegal(planted)) if planted == code => None,
        Some(ListingMistake::IllegalByName(planted)) if planted == code => Some(name_of(code)),
        _ => is_legal(code).then(|| name_of(code)),
    }
}

/// The form of an opcode that has a mnemonic.
pub fn form(code: u8, mistake: Option<ListingMistake>) -> Form {
    match mistake {
        Some(ListingMistake::FormIs(planted, form)) if planted == code => form,
        _ => line_of(code).map_or(Form::Bare, form_of),
    }
}

/// The upper 24 bits as a signed number.
pub fn operand(word: u32, mistake: Option<ListingMistake>) -> i32 {
    let code = word as u8;
    match mistake {
        Some(ListingMistake::Unsigned(planted)) if planted == code => field(word) as i32,
        Some(ListingMistake::Short(planted)) if planted == code => field(word) as i16 as i32,
        _ => immediate(word) as i32,
    }
}

/// Where a jump or branch leads: pc, already moved, plus imm, low bits kept.
pub fn target(address: u32, word: u32, mistake: Option<ListingMistake>) -> u32 {
    let next = address.wrapping_add(4);
    let imm = immediate(word);
    let right = next.wrapping_add(imm);
    let slip = match mistake {
        Some(ListingMistake::TargetBy(planted, slip)) if planted == word as u8 => slip,
        _ => return right,
    };
    match slip {
        TargetSlip::OwnAddress => address.wrapping_add(imm),
        TargetSlip::LowBitsDropped => right & !3,
        TargetSlip::Unsigned => next.wrapping_add(field(word)),
        TargetSlip::InWords => next.wrapping_add(imm << 2),
        TargetSlip::InMemory => right % MEMORY as u32,
        TargetSlip::Saturating => next.saturating_add_signed(imm as i32),
    }
}
