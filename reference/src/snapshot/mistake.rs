//! Mistakes that can be planted in saving and reading: other readings of item 5
//! and of the decisions on it, slips in each clause.

use crate::case::numbers::{widths, NAMES};
use crate::double::{is_nan, NAN};
use crate::mistake::{mistakes, Mistake};
use crate::types::{Cause, Registers, Stop};

mistakes! {
    SnapshotMistake:
    // The file, saved and read alike.
    HighByteFirst: "numbers have their highest byte first",
    HighHalfFirst: "numbers of 64 bits have their higher half first",
    KeysSaved: "keys taken follow the registers",
    FloatsCanonical: "a NaN in f or g becomes canonical",
    FloatsByMode: "f and g are kept with doubles only",
    PagesAreBytes: "the count of pages is M",
    OffsetsAfterHeader: "offsets count from the header's end",
    ConsolePadded: "memory begins at a multiple of 4",
    ConsoleWhole: "the console block is the lent console",
    WrittenForgotten: "the console count is 0",
    EntriesForgotten: "no entries are kept",
    EntriesReversed: "the last entry stands first",
    PageShort: "an entry's page is taken modulo 2^16",
    FirstPageOnly: "only the first page of memory is kept",
    // Saving.
    AllSlotsSaved: "slots past the count are saved too",
    LaterFileZeroed: "file bytes after the saved ones are zeroed",
    LengthOfFile: "the length answered is the lent file's",
    LengthOfBlocks: "the length answered leaves the header out",
    RefusedHasLength: "a refused save answers the length",
    ShortHasLength: "a save that 13 refuses answers the length",
    RefusedSaveClears: "a refused save clears the file",
    ShortFileCleared: "a save that 13 refuses clears the file",
    SaveByteShort: "a file that is a byte short passes on saving",
    SaveExactRefused: "a file of the exact length is refused on saving",
    SaveLongerRefused: "a longer file is refused on saving",
    // Reading: lengths and counts.
    HeaderByteShort: "a file of 27 bytes passes 13",
    HeaderAloneShort: "a file of 28 bytes is 13",
    ShortFileIs13: "a file shorter than its blocks is 13",
    LongerFilePasses: "a longer file passes",
    ShorterFilePasses: "a shorter file passes 15",
    LengthByWords: "the length is compared in words",
    LengthUnjudged: "any length passes 15",
    PagesUnjudged: "any count of pages passes 14",
    PagesWrap: "pages times 4,096 is taken modulo 2^32",
    FewerPagesPass: "fewer pages than the lent memory has pass 14",
    MorePagesPass: "more pages than the lent memory has pass 14",
    EntriesUnjudged: "any count of entries passes 14",
    EntryMorePasses: "65 entries pass 14",
    FullBufferRefused: "64 entries are refused",
    ConsoleUnjudged: "any console count passes 14",
    ConsoleSigned: "a console count of 2^31 or more passes 14",
    ConsoleByteMorePasses: "a console count of one more than the lent console passes 14",
    FullConsoleRefused: "a console count equal to the lent console is refused",
    // Reading: what 16 lets pass.
    KbcharJudged: "a kbchar that no key gives is refused",
    TimerJudged: "a timer above timeout is refused",
    VadrWithoutCauseJudged: "vadr without a cause is refused",
    CauseWithoutVadrJudged: "a cause with vadr 0 is refused",
    WaitingStoppedJudged: "waiting in a stopped machine is refused",
    WaitingMaskedJudged: "waiting with iena = 0 is refused",
    MarkStoppedJudged: "a mark in a stopped machine is refused",
    StoppedJudged: "a stopped machine is refused",
    FreshCountJudged: "a stopped machine with step count 0 is refused",
    NanJudged: "a NaN in f or g is refused",
    FloatsJudged: "f or g not 0 in the old mode is refused",
    ModeJudged: "the mode with doubles is refused",
    // Reading: what is left.
    LaterConsoleZeroed: "console bytes after the read ones are zeroed",
    RefusedKbchar: "a refused read gives kbchar = 0xFFFFFFFF",
    RefusedHasRecord: "a read that 16 refuses gives the record",
    RefusedReadClearsMemory: "a refused read clears memory",
    RefusedReadClearsConsole: "a refused read clears the console",
    BlocksBeforeRecord: "memory and console are read before 16 is judged",
    ;
    // By places in the file; saved and read alike.
    NumbersExchanged(usize),
    NumberForgotten(usize),
    NumberShort(usize),
    NumberIsWord(usize),
    HalvesExchanged(usize),
    HeaderExchanged(usize),
    EntryExchanged(usize),
    BlocksExchanged(usize),
    OffsetHigh(usize),
    // By refusals and what they judge.
    Judging(Mistake),
    SaveOrder(u32, u32),
    SaveUnjudged(u32),
    ReadOrder(u32, u32),
    ReadUnjudged(u32),
    OffsetUnjudged(usize),
    OffsetLowHalf(usize),
    LooseNumber(usize, Loose),
    LooseRight(usize, Loose),
}

/// How a number that stands for nothing could pass.
#[derive(Clone, Copy, Debug, PartialEq, Eq)]
pub enum Loose {
    Any,
    ByLowByte,
    Signed,
    OneMore,
}

impl Loose {
    pub const ALL: [Loose; 4] = [Loose::Any, Loose::ByLowByte, Loose::Signed, Loose::OneMore];

    /// What is taken for a number that must be below `bound`.
    fn taken(self, number: u64, bound: u64) -> u64 {
        let passes = match self {
            Loose::Any => true,
            Loose::ByLowByte => number % 256 < bound,
            Loose::Signed => (number as u32 as i32) < bound as i32,
            Loose::OneMore => number <= bound,
        };
        if passes {
            number % bound
        } else {
            number
        }
    }
}

/// The place of a number in the register block.
pub fn place(name: &str) -> Option<usize> {
    NAMES.iter().position(|other| *other == name)
}

/// The numbers of the register block that stand for something, each with what it
/// must be below.
pub fn bounded() -> impl Iterator<Item = (usize, u64)> {
    let flags = ["user", "iena", "paging", "waiting", "key_pending", "timer_pending", "mode"];
    let others = [("stop", Stop::ALL.len()), ("cause", Cause::ALL.len())];
    let all = flags.map(|flag| (flag, 2)).into_iter().chain(others);
    all.filter_map(|(name, bound)| Some((place(name)?, bound as u64)))
}

impl SnapshotMistake {
    /// A slip in what document 01 refuses.
    pub fn judging(self) -> Option<Mistake> {
        match self {
            SnapshotMistake::Judging(mistake) => Some(mistake),
            _ => None,
        }
    }

    pub fn save_order(self) -> Option<Mistake> {
        match self {
            SnapshotMistake::SaveOrder(low, high) => Some(Mistake::Order(low, high)),
            _ => None,
        }
    }

    pub fn read_order(self) -> Option<Mistake> {
        match self {
            SnapshotMistake::ReadOrder(low, high) => Some(Mistake::Order(low, high)),
            _ => None,
        }
    }

    /// The header's word that changes its place with the next.
    pub fn header_exchange(self) -> Option<usize> {
        match self {
            SnapshotMistake::HeaderExchanged(nth) => Some(nth),
            _ => None,
        }
    }

    /// The same of an entry's words.
    pub fn entry_exchange(self) -> Option<usize> {
        match self {
            SnapshotMistake::EntryExchanged(nth) => Some(nth),
            _ => None,
        }
    }

    /// A number of the register block that is lost, loses its higher half or is
    /// changed otherwise.
    pub fn misread_number(self, list: &mut [u64]) {
        let old = place("mode").is_some_and(|nth| list[nth] == 0);
        for nth in ["f", "g"].into_iter().filter_map(place) {
            match self {
                SnapshotMistake::FloatsCanonical if is_nan(list[nth]) => list[nth] = NAN,
                SnapshotMistake::FloatsByMode if old => list[nth] = 0,
                _ => {}
            }
        }
        match self {
            SnapshotMistake::HalvesExchanged(nth) => list[nth] = list[nth].rotate_left(32),
            SnapshotMistake::NumberForgotten(nth) => list[nth] = 0,
            SnapshotMistake::NumberShort(nth) => list[nth] &= (1 << (4 * widths()[nth])) - 1,
            _ => {}
        }
    }

    /// A number of the register block that isn't judged as it should be.
    pub fn loosen_number(self, list: &mut [u64]) {
        let SnapshotMistake::LooseNumber(loose_nth, loose) = self else { return };
        for (nth, bound) in bounded().filter(|(nth, _)| *nth == loose_nth) {
            list[nth] = loose.taken(list[nth], bound);
        }
    }

    /// The same of the user right (0) or the write right (1) of an entry.
    pub fn loosen_right(self, words: &mut [u64; 4]) {
        if let SnapshotMistake::LooseRight(nth, loose) = self {
            words[2 + nth] = loose.taken(words[2 + nth], 2);
        }
    }

    /// Whether registers that pass are refused.
    pub fn misjudges(self, regs: &Registers) -> bool {
        let stopped = regs.stop != Stop::Running;
        match self {
            SnapshotMistake::KbcharJudged => regs.kbchar > 255 && regs.kbchar != u32::MAX,
            SnapshotMistake::TimerJudged => regs.timer > regs.timeout,
            SnapshotMistake::VadrWithoutCauseJudged => regs.vadr != 0 && regs.cause == Cause::None,
            SnapshotMistake::CauseWithoutVadrJudged => regs.vadr == 0 && regs.cause != Cause::None,
            SnapshotMistake::WaitingStoppedJudged => regs.waiting && stopped,
            SnapshotMistake::WaitingMaskedJudged => regs.waiting && !regs.iena,
            SnapshotMistake::MarkStoppedJudged => {
                (regs.key_pending || regs.timer_pending) && stopped
            }
            SnapshotMistake::StoppedJudged => stopped,
            SnapshotMistake::FreshCountJudged => stopped && regs.count == 0,
            SnapshotMistake::NanJudged => is_nan(regs.f) || is_nan(regs.g),
            SnapshotMistake::FloatsJudged => !regs.mode && regs.f | regs.g != 0,
            SnapshotMistake::ModeJudged => regs.mode,
            _ => false,
        }
    }

    /// Mistakes in the file itself: calls of both kinds must tell them apart.
    pub fn is_about_file(self) -> bool {
        let nth = |mistake: SnapshotMistake| {
            SnapshotMistake::ALL.iter().position(|other| *other == mistake)
        };
        nth(self).is_some_and(|at| Some(at) < nth(SnapshotMistake::AllSlotsSaved))
    }
}
