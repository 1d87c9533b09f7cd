//! The printed listing of an executable. Document 02, item 2.

pub mod form;
pub mod mistake;
mod slips;
pub mod unlist;

use crate::line::MEMORY;
use crate::load::{load_with, HEADER};
use crate::words;
use form::{form, mnemonic, operand, target, Form};
use mistake::ListingMistake;

/// The lines of a file's listing, without their newlines.
pub fn list(file: &[u8]) -> Vec<String> {
    let listing = Listing::new(file, None);
    (0..).map_while(|number| listing.line(number)).collect()
}

/// What a file's listing is made of: one line a word of the body, or the one
/// line that refuses the file.
pub struct Listing {
    /// What the run program's machine answers to the file.
    answer: u32,
    words: Vec<u32>,
    data_start: u32,
    mistake: Option<ListingMistake>,
}

impl Listing {
    /// With a planted mistake if one is named.
    pub fn new(file: &[u8], mistake: Option<ListingMistake>) -> Listing {
        let mut answer = answer(file, mistake);
        if mistake == Some(ListingMistake::RefusedListed) && file.len() >= HEADER {
            answer = 0;
        }
        let (mut words, mut data_start) = (Vec::new(), 0);
        if answer == 0 {
            data_start = words::get(file, 12, 4);
            words = body_words(&file[HEADER..], mistake);
        }
        if mistake == Some(ListingMistake::DataSkipped) {
            words.truncate(data_start.div_ceil(4) as usize);
        }
        Listing { answer, words, data_start, mistake }
    }

    /// Line `number`, from 0, without its newline; `None` where there is none.
    pub fn line(&self, number: u64) -> Option<String> {
        let nth = usize::try_from(self.seen_number(number)).ok()?;
        if self.answer != 0 {
            let shown = nth == 0 && self.mistake != Some(ListingMistake::RefusedSilent);
            return shown.then(|| format!("refused {}", self.answer));
        }
        let word = *self.words.get(nth)?;
        let address = 4 * nth as u32;
        let data = is_data(address, self.data_start, self.mistake);
        let shown = match self.mistake {
            Some(ListingMistake::HeaderCounted) => address + HEADER as u32,
            Some(ListingMistake::AddressInWords) => nth as u32,
            _ => address,
        };
        Some(line_with(shown, word, data, self.mistake))
    }

    /// The number itself, but for planted mistakes.
    fn seen_number(&self, number: u64) -> u64 {
        let last = self.words.len().saturating_sub(1) as u64;
        match self.mistake {
            Some(ListingMistake::NumberLowHalf) => number & 0xffff_ffff,
            Some(ListingMistake::AddressLowHalf) => number & 0x3fff_ffff,
            Some(ListingMistake::AddressWraps) => number & (u64::MAX >> 2),
            Some(ListingMistake::LastRepeated) => number.min(last),
            Some(ListingMistake::RefusedRepeated) if self.answer != 0 => 0,
            _ => number,
        }
    }
}

fn answer(file: &[u8], mistake: Option<ListingMistake>) -> u32 {
    let (size, planted) = match mistake {
        Some(ListingMistake::MachinePageLess) => (MEMORY - 4096, None),
        Some(ListingMistake::MachinePageMore) => (MEMORY + 4096, None),
        Some(ListingMistake::Load(planted)) => (MEMORY, Some(planted)),
        _ => (MEMORY, None),
    };
    load_with(&mut vec![0; size], file, planted).0
}

/// The words of a body, the last padded with zeros.
fn body_words(body: &[u8], mistake: Option<ListingMistake>) -> Vec<u32> {
    let mut body = body.to_vec();
    let short = body.len() / 4 * 4;
    let spare = body.len().next_multiple_of(4) - body.len();
    match mistake {
        Some(ListingMistake::ShortWordDropped) => body.truncate(short),
        Some(ListingMistake::ShortWordOnes) => body.resize(body.len() + spare, 0xff),
        Some(ListingMistake::ShortWordHigh) => drop(body.splice(short..short, vec![0; spare])),
        Some(ListingMistake::MemoryListed) => body.resize(MEMORY, 0),
        _ => body.resize(body.len() + spare, 0),
    }
    let word = |bytes: &[u8]| match mistake {
        Some(ListingMistake::BigEndianWords) => words::get(bytes, 0, 4).swap_bytes(),
        _ => words::get(bytes, 0, 4),
    };
    body.chunks_exact(4).map(word).collect()
}

/// "Words at or above data start": by their address.
fn is_data(address: u32, data_start: u32, mistake: Option<ListingMistake>) -> bool {
    match mistake {
        Some(ListingMistake::DataStartIgnored) => false,
        Some(ListingMistake::DataStartIsText) => address > data_start,
        Some(ListingMistake::StraddlingIsData) => address + 3 >= data_start,
        Some(ListingMistake::DataStartInFile) => address + HEADER as u32 >= data_start,
        _ => address >= data_start,
    }
}

/// A word's line, as data or as text. "Illegal opcodes list as data."
pub fn line(address: u32, word: u32, data: bool) -> String {
    line_with(address, word, data, None)
}

fn line_with(address: u32, word: u32, data: bool, mistake: Option<ListingMistake>) -> String {
    let code = word as u8;
    let mut line = format!("{address:08x} {word:08x} ");
    match mnemonic(code, mistake) {
        Some(name) if !data => {
            line += name;
            line += &match form(code, mistake) {
                Form::Bare => String::new(),
                Form::Number => format!(" {}", operand(word, mistake)),
                Form::Target => format!(" {:08x}", target(address, word, mistake)),
            };
        }
        _ => line += "data",
    }
    slips::written(line, mistake)
}
