//! Mistakes that can be planted in the listing and in reading it back: other
//! readings of item 2 and of the decisions on it, slips in each clause.

use super::form::{form_of, Form};
use crate::families::{family, Family};
use crate::mistake::{mistakes, Mistake};
use crate::opcodes::sets::{is_legal, line_of, ILLEGAL, LEGAL};
use crate::opcodes::table::LINES;

mistakes! {
    ListingMistake:
    // The listing: which words, and what they are.
    BigEndianWords: "words are read with their highest byte first",
    ShortWordDropped: "a short last word is not listed",
    ShortWordOnes: "a short last word is padded with 0xff",
    ShortWordHigh: "a short last word's bytes are its highest",
    MemoryListed: "the zeros after the body are listed too",
    DataSkipped: "words at or above data start are not listed",
    DataStartIgnored: "words at or above data start are listed as text",
    DataStartIsText: "the word at data start is text",
    StraddlingIsData: "a word that straddles data start is data",
    DataStartInFile: "data start counts the header",
    HeaderCounted: "addresses count the header",
    AddressInWords: "addresses count words",
    // Files that the run program refuses, and numbers of lines.
    RefusedSilent: "a refused file has no line",
    RefusedListed: "the body of a refused file is listed",
    RefusedRepeated: "each line of a refused file is its refused line",
    MachinePageLess: "the machine has 28,672 bytes",
    MachinePageMore: "the machine has 36,864 bytes",
    NumberLowHalf: "a line's number is taken modulo 2^32",
    AddressLowHalf: "a line's address is taken modulo 2^32",
    AddressWraps: "a line's address is taken modulo 2^64",
    LastRepeated: "past the end the last line comes again",
    // How a line is written.
    UpperCaseDigits: "address and word have upper-case digits",
    UpperCaseTargets: "targets have upper-case digits",
    ShortNumbers: "address and word have no leading zeros",
    ShortTargets: "targets have no leading zeros",
    WideTargets: "targets are not taken modulo 2^32",
    LowerCaseNames: "mnemonics are in lower case",
    UpperCaseData: "data is in upper case",
    DataOperand: "data lists its upper 24 bits",
    PlusSign: "operands have their sign always",
    HexOperands: "operands are hexadecimal",
    TwoSpaces: "two spaces stand before the mnemonic",
    TrailingSpace: "a line without operand ends with a space",
    // Reading back: lines taken for listed ones.
    AcceptsTrailingSpace: "a space at the end passes",
    AcceptsNewline: "a newline at the end passes",
    AcceptsCarriageReturn: "a carriage return at the end passes",
    AcceptsZeroByte: "a zero byte at the end passes",
    AcceptsLeadingSpace: "a space in front passes",
    AcceptsTwoSpaces: "more than one space passes between fields",
    AcceptsTabs: "tabs pass for spaces",
    AcceptsUpperAddress: "an address in upper case passes",
    AcceptsUpperWord: "a word in upper case passes",
    AcceptsUpperTarget: "a target in upper case passes",
    AcceptsLowerName: "a mnemonic in lower case passes",
    AcceptsUpperData: "data in upper case passes",
    AcceptsNextDigit: "a colon passes as the hexadecimal digit after 9",
    AcceptsShortAddress: "an address without leading zeros passes",
    AcceptsShortWord: "a word without leading zeros passes",
    AcceptsShortTarget: "a target without leading zeros passes",
    AcceptsLongAddress: "an address with more zeros in front passes",
    AcceptsLongWord: "a word with more zeros in front passes",
    AcceptsPlus: "an operand with a plus sign passes",
    AcceptsMinusZero: "-0 passes",
    AcceptsLeadingZeros: "an operand with leading zeros passes",
    AcceptsMoreFields: "what follows a fourth field is not looked at",
    AcceptsLongerLine: "bytes after the 31st are not looked at",
    AcceptsRefused: "a refused line passes",
    AcceptsAddressAtM: "address M passes",
    AcceptsAnyAddress: "any multiple of 4 passes as an address",
    AcceptsEvenAddress: "an even address passes",
    AcceptsOddAddress: "an odd address passes",
    AcceptsDataAtZero: "data at address 0 passes for a legal opcode",
    AcceptsDataOperand: "data with an operand passes",
    AcceptsIllegalName: "an illegal opcode passes with its mnemonic of 000",
    AcceptsMissingOperand: "an operand may be left out",
    AcceptsOperandAnywhere: "an opcode without operand may have one",
    NameUncompared: "any mnemonic passes",
    OperandUncompared: "any number passes as operand",
    OperandByField: "an operand is compared modulo 2^24",
    OperandByWord: "an operand is compared modulo 2^32",
    TargetUncompared: "any target passes",
    AssemblesWord: "the word is put together from mnemonic and operand",
    // Reading back: listed lines refused, and what a refused one gives.
    RefusesDataAtZero: "data at address 0 is refused for an illegal opcode",
    RefusesLegalData: "data is refused for a legal opcode",
    RefusesDataAtFour: "data at address 4 is refused for a legal opcode",
    RefusesLastAddress: "the machine's last word is refused",
    RefusesLongest: "a line of 31 bytes is refused",
    RefusedHasValues: "a refused line gives its address and word",
    ;
    // In both: what is listed and read back of an opcode byte.
    NamedAs(u8, u8),
    LegalAsIllegal(u8),
    IllegalByName(u8),
    FormIs(u8, Form),
    Unsigned(u8),
    Short(u8),
    TargetBy(u8, TargetSlip),
    // In the listing: a slip in loading.
    Load(Mistake),
}

/// Slips in a target.
#[derive(Clone, Copy, Debug, PartialEq, Eq)]
pub enum TargetSlip {
    OwnAddress,
    LowBitsDropped,
    Unsigned,
    InWords,
    InMemory,
    Saturating,
}

impl TargetSlip {
    const ALL: [TargetSlip; 6] = {
        use TargetSlip::*;
        [OwnAddress, LowBitsDropped, Unsigned, InWords, InMemory, Saturating]
    };
}

/// Legal bytes whose operand has this form.
fn with_form(form: Form) -> impl Iterator<Item = u8> {
    let has = move |code: &u8| line_of(*code).map(form_of) == Some(form);
    LEGAL.iter().copied().filter(has)
}

/// Mistakes about opcodes. The listing and reading back both make them, and
/// calls of each kind must tell them apart.
pub fn opcode_families() -> Vec<Family<ListingMistake>> {
    use ListingMistake::*;
    let as_others = |code: u8| LEGAL.iter().map(move |other| (code, *other));
    let unequal = |(code, other): (u8, u8)| (code != other).then_some(NamedAs(code, other));
    let other_forms = |code: u8| Form::ALL.map(|form| (code, form));
    let wrong = |&(code, form): &(u8, Form)| line_of(code).map(form_of) != Some(form);
    let named = LINES.iter().map(|line| line.code).filter(|code| !is_legal(*code));
    let slips = |code: u8| TargetSlip::ALL.map(|slip| TargetBy(code, slip));
    vec![
        family(
            "legal opcode [0] has the mnemonic of [1]",
            LEGAL.iter().flat_map(|code| as_others(*code)).filter_map(unequal),
        ),
        family(
            "illegal byte [0] has the mnemonic of [1]",
            ILLEGAL.iter().flat_map(|code| as_others(*code)).filter_map(unequal),
        ),
        family("legal opcode [0] is illegal", LEGAL.iter().map(|code| LegalAsIllegal(*code))),
        family("illegal opcode [0] has its mnemonic of 000", named.map(IllegalByName)),
        family(
            "opcode [0] has no operand, a number, a target ([1])",
            LEGAL
                .iter()
                .flat_map(|code| other_forms(*code))
                .filter(wrong)
                .map(|(code, form)| FormIs(code, form)),
        ),
        family("opcode [0] has an unsigned operand", with_form(Form::Number).map(Unsigned)),
        family("opcode [0] has a signed operand of 16 bits", with_form(Form::Number).map(Short)),
        family("opcode [0] has a wrong target ([1])", with_form(Form::Target).flat_map(slips)),
    ]
}

/// Slips in loading, which the refused line shows.
pub fn load_family() -> Family<ListingMistake> {
    use Mistake::{BssCounts, DataStartSigned, EntryWraps, LoadAlignsData, MagicByte, Order};
    let orders = [(7, 8), (8, 9), (8, 10), (8, 11), (9, 10), (9, 11), (10, 11)];
    let single = [BssCounts, DataStartSigned, EntryWraps, LoadAlignsData];
    let members = orders.map(|(low, high)| Order(low, high)).into_iter();
    let members = members.chain(single).chain((0..4).map(MagicByte));
    family("the file is loaded with a slip ([0])", members.map(ListingMistake::Load))
}

/// The opcode byte that a mistake is about; it shows only where it stands.
pub fn opcode_of(mistake: ListingMistake) -> Option<u8> {
    use ListingMistake::*;
    match mistake {
        NamedAs(code, _) | LegalAsIllegal(code) | IllegalByName(code) => Some(code),
        FormIs(code, _) | Unsigned(code) | Short(code) | TargetBy(code, _) => Some(code),
        _ => None,
    }
}
