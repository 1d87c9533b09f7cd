//! Lines that are nearly listed: a word's line but for one thing, which a name
//! says. A few of them are listed lines again, of another word or another file.

use crate::line::MEMORY;
use crate::listing::form::{form_of, Form};
use crate::listing::line;
use crate::opcodes::sets::{is_legal, line_of, name_of, LEGAL};
use crate::words::{field, immediate};

/// A name and a line.
pub type Near = (&'static str, Vec<u8>);

/// A word, where it stands, and whether that is at or above data start.
#[derive(Clone, Copy, Debug)]
pub struct Listed {
    pub address: u32,
    pub word: u32,
    pub data: bool,
}

impl Listed {
    pub fn line(self) -> String {
        line(self.address, self.word, self.data)
    }

    fn imm(self) -> i32 {
        immediate(self.word) as i32
    }

    fn target(self) -> u32 {
        self.address.wrapping_add(4).wrapping_add(immediate(self.word))
    }
}

/// The fields of a line.
#[derive(Clone)]
struct Fields {
    address: String,
    word: String,
    name: String,
    operand: Option<String>,
}

impl Fields {
    fn of(line: &str) -> Fields {
        let mut fields = line.split(' ').map(str::to_string);
        let mut next = || fields.next().unwrap_or_default();
        let [address, word, name] = [next(), next(), next()];
        Fields { address, word, name, operand: fields.next() }
    }

    fn line(&self) -> Vec<u8> {
        let mut line = format!("{} {} {}", self.address, self.word, self.name);
        if let Some(operand) = &self.operand {
            line += &format!(" {operand}");
        }
        line.into_bytes()
    }
}

/// The near misses of one line, as they are added.
struct Misses {
    listed: Listed,
    fields: Fields,
    list: Vec<Near>,
}

/// All near misses of a listed line that it has.
pub fn near_misses(listed: Listed) -> Vec<Near> {
    let fields = Fields::of(&listed.line());
    let mut misses = Misses { listed, fields, list: Vec::new() };
    misses.addresses();
    misses.words();
    misses.names();
    match (misses.fields.operand.is_some(), line_of(listed.word as u8).map(form_of)) {
        (true, Some(Form::Target)) => misses.targets(),
        (true, _) => misses.numbers(),
        (false, _) => misses.operands_added(),
    }
    misses.spaces();
    misses.lengths();
    misses.list
}

impl Misses {
    fn add(&mut self, name: &'static str, line: impl Into<Vec<u8>>) {
        self.list.push((name, line.into()));
    }

    /// The line with its fields changed.
    fn with(&mut self, name: &'static str, change: impl FnOnce(&mut Fields)) {
        let mut fields = self.fields.clone();
        change(&mut fields);
        self.add(name, fields.line());
    }

    fn with_operand(&mut self, name: &'static str, operand: impl Into<String>) {
        self.with(name, |fields| fields.operand = Some(operand.into()));
    }

    fn addresses(&mut self) {
        let Listed { address, word, data } = self.listed;
        let elsewhere = |address: u32| line(address, word, data);
        self.with("address in upper case", |fields| fields.address = format!("{address:08X}"));
        self.with("address without zeros", |fields| fields.address = format!("{address:x}"));
        self.with("address of nine digits", |fields| fields.address = format!("{address:09x}"));
        self.with("address of seven digits", |fields| fields.address = format!("{address:07x}"));
        self.with("address with 0x", |fields| fields.address.insert_str(0, "0x"));
        self.with("the next address", |fields| fields.address = format!("{:08x}", address + 4));
        self.add("odd address", elsewhere(address + 1));
        self.add("even address", elsewhere(address + 2));
        self.add("address M", elsewhere(MEMORY as u32));
        self.add("address and M", elsewhere(address + MEMORY as u32));
        self.add("address and 2^16", elsewhere(address + 0x1_0000));
        self.add("negative address", elsewhere(address.wrapping_sub(MEMORY as u32)));
    }

    fn words(&mut self) {
        let Listed { address, word, data } = self.listed;
        self.with("word in upper case", |fields| fields.word = format!("{word:08X}"));
        self.with("word without zeros", |fields| fields.word = format!("{word:x}"));
        self.with("word of nine digits", |fields| fields.word = format!("{word:09x}"));
        self.with("word with 0x", |fields| fields.word.insert_str(0, "0x"));
        self.with("another operand's word", |fields| fields.word = format!("{:08x}", word ^ 0x100));
        self.with("another opcode's word", |fields| fields.word = format!("{:08x}", word ^ 1));
        self.with("word, highest byte last", |fields| {
            fields.word = format!("{:08x}", word.swap_bytes());
        });
        self.with("address and word exchanged", |fields| {
            std::mem::swap(&mut fields.address, &mut fields.word);
        });
        self.add("text for data, data for text", line(address, word, !data));
    }

    fn names(&mut self) {
        let Listed { word, .. } = self.listed;
        let code = word as u8;
        self.with("name in another case", |fields| {
            let upper = fields.name.to_ascii_uppercase();
            let lower = fields.name.to_ascii_lowercase();
            fields.name = if fields.name == upper { lower } else { upper };
        });
        self.with("name cut", |fields| fields.name.truncate(fields.name.len() - 1));
        self.with("name with a letter more", |fields| fields.name.push('I'));
        self.with("no name", |fields| fields.name.clear());
        self.with("data with the rest", |fields| fields.name = "data".to_string());
        self.with("data alone", |fields| {
            (fields.name, fields.operand) = ("data".to_string(), None);
        });
        let like = |other: &&u8| **other != code && line_of(**other).map(form_of) == form(code);
        if let Some(other) = LEGAL.iter().find(like) {
            self.with("another mnemonic", |fields| fields.name = name_of(*other).to_string());
        }
        if let (false, Some(named)) = (is_legal(code), line_of(code)) {
            self.with("an illegal opcode's name", |fields| {
                fields.name = named.name.to_string();
                fields.operand = named.operand.then(|| (immediate(word) as i32).to_string());
            });
        }
    }

    fn numbers(&mut self) {
        let (imm, word) = (self.listed.imm(), self.listed.word);
        let sign = if imm < 0 { "-" } else { "" };
        self.with_operand("leading zero", format!("{sign}0{}", imm.unsigned_abs()));
        self.with_operand("plus sign", format!("+{}", imm.unsigned_abs()));
        self.with_operand("two signs", format!("--{}", imm.unsigned_abs()));
        match imm {
            0 => self.with_operand("minus zero", "-0"),
            _ => self.with_operand("wrong sign", (-imm).to_string()),
        }
        if imm < 0 {
            self.with_operand("unsigned operand", field(word).to_string());
        }
        self.with_operand("operand and 2^24", (i64::from(imm) + (1 << 24)).to_string());
        self.with_operand("operand and 2^32", (i64::from(imm) + (1 << 32)).to_string());
        self.with_operand("operand and 1", (imm + 1).to_string());
        self.with_operand("operand times ten", format!("{imm}0"));
        self.with_operand("operand in hexadecimal", format!("{:06x}", field(word)));
        self.with_operand("operand as a target", format!("{:08x}", self.listed.target()));
        self.operands();
    }

    fn targets(&mut self) {
        let (imm, address, target) = (self.listed.imm(), self.listed.address, self.listed.target());
        let own = address.wrapping_add(imm as u32);
        self.with_operand("target in upper case", format!("{target:08X}"));
        self.with_operand("target without zeros", format!("{target:x}"));
        self.with_operand("target of nine digits", format!("1{target:08x}"));
        self.with_operand("target in decimal", target.to_string());
        self.with_operand("target as a number", imm.to_string());
        self.with_operand("target from the own address", format!("{own:08x}"));
        self.with_operand("target without low bits", format!("{:08x}", target & !3));
        self.with_operand("target and 4", format!("{:08x}", target.wrapping_add(4)));
        self.with_operand("target and 1", format!("{:08x}", target.wrapping_add(1)));
        self.operands();
    }

    /// Of every line with an operand.
    fn operands(&mut self) {
        let operand = self.fields.operand.clone().unwrap_or_default();
        self.with("operand left out", |fields| fields.operand = None);
        self.with_operand("operand empty", "");
        self.with_operand("operand twice", format!("{operand} {operand}"));
        self.with_operand("operand with 0x", format!("0x{operand}"));
    }

    fn operands_added(&mut self) {
        let imm = self.listed.imm();
        self.with_operand("operand 0 added", "0");
        self.with_operand("its field added", imm.to_string());
        self.with_operand("a target added", format!("{:08x}", self.listed.target()));
    }

    fn spaces(&mut self) {
        let line = self.listed.line();
        self.with("two spaces after the address", |fields| fields.address.push(' '));
        self.with("two spaces after the word", |fields| fields.word.push(' '));
        if self.fields.operand.is_some() {
            self.with("two spaces after the name", |fields| fields.name.push(' '));
        }
        self.add("tab after the address", line.replacen(' ', "\t", 1));
        self.add("tabs", line.replace(' ', "\t"));
        self.add("no space after the address", line.replacen(' ', "", 1));
        self.add("space in front", format!(" {line}"));
        self.add("space at the end", format!("{line} "));
        self.add("newline in front", format!("\n{line}"));
        self.add("newline at the end", format!("{line}\n"));
        self.add("carriage return at the end", format!("{line}\r"));
        self.add("carriage return and newline", format!("{line}\r\n"));
        self.add("zero byte at the end", format!("{line}\0"));
    }

    fn lengths(&mut self) {
        let line = self.listed.line();
        self.add("joined", format!("{line}{line}"));
        self.add("joined by a space", format!("{line} {line}"));
        self.add("joined by a newline", format!("{line}\n{line}"));
        for (name, length) in [
            ("filled to 32 bytes", 32),
            ("filled to 64 bytes", 64),
            ("filled to 65 bytes", 65),
            ("filled to 300 bytes", 300),
        ] {
            let mut filled = line.clone().into_bytes();
            filled.resize(length, b' ');
            self.add(name, filled);
        }
    }
}

/// The form of an opcode that lists with its mnemonic.
fn form(code: u8) -> Option<Form> {
    line_of(code).filter(|_| is_legal(code)).map(form_of)
}
