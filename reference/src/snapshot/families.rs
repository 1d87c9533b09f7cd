//! Families of mistakes in saved machines: by places in the file, refusals and
//! what they judge.

use super::mistake::{bounded, Loose, SnapshotMistake};
use crate::case::numbers::{widths, NAMES};
use crate::families::{family, Family};
use crate::mistake::Mistake;

/// Mistakes about places in the file, made by saving and reading both.
pub fn file_families() -> Vec<Family<SnapshotMistake>> {
    use SnapshotMistake::*;
    let numbers = NAMES.len();
    let flags: Vec<usize> = bounded().map(|(nth, _)| nth).collect();
    let wide = (0..numbers).filter(move |nth| !flags.contains(nth));
    let long =
        || widths().into_iter().enumerate().filter(|number| number.1 == 8).map(|number| number.0);
    vec![
        family("number [0] and the next are exchanged", (0..numbers - 1).map(NumbersExchanged)),
        family("number [0] is 0", (0..numbers).map(NumberForgotten)),
        family("number [0] loses its higher half", wide.map(NumberShort)),
        family("number [0] of 64 bits takes a word", long().map(NumberIsWord)),
        family("number [0] of 64 bits has its halves exchanged", long().map(HalvesExchanged)),
        family("word [0] of the header and the next are exchanged", (0..6).map(HeaderExchanged)),
        family("word [0] of an entry and the next are exchanged", (0..3).map(EntryExchanged)),
        family("block [0] and the next are exchanged", (0..3).map(BlocksExchanged)),
        family("offset [0] is 4 too high", (0..4).map(OffsetHigh)),
        family("registers are judged with a slip ([0])", fields().map(Judging)),
        family("entries are judged with a slip ([0])", entries().map(Judging)),
    ]
}

/// Slips in 2.
fn fields() -> impl Iterator<Item = Mistake> {
    let single = [Mistake::PdirFreeUnpaged, Mistake::MarksJudged];
    let loose = (0..6).map(Mistake::LooseField);
    loose.chain((0..6).map(Mistake::UnjudgedField)).chain(single)
}

/// Slips in 3 that show in a file as well as in a record.
fn entries() -> impl Iterator<Item = Mistake> {
    use Mistake::{FrameUnchecked, PageUnchecked, TwiceAdjacentOnly};
    [FrameUnchecked, PageUnchecked, TwiceAdjacentOnly].into_iter()
}

/// All i < j of a list.
fn pairs(numbers: &[u32]) -> Vec<(u32, u32)> {
    let from = |at: usize| numbers[at + 1..].iter().map(move |high| (numbers[at], *high));
    (0..numbers.len()).flat_map(from).collect()
}

/// Mistakes in what saving refuses. 15 needs a file above 4 GiB.
pub fn save_families() -> Vec<Family<SnapshotMistake>> {
    use Mistake::{CountLowByte, GoodSlotsAboveCount, MemoryByHalfPages};
    use Mistake::{SlotsPastCount, WrittenLowHalf};
    use SnapshotMistake::*;
    let numbers = [1, 2, 3, 5, 13];
    let slips = [CountLowByte, GoodSlotsAboveCount, MemoryByHalfPages];
    let slips = slips.into_iter().chain([SlotsPastCount, WrittenLowHalf]);
    vec![
        family(
            "of saving's refusals [1] is given before [0]",
            pairs(&numbers).into_iter().map(|(low, high)| SaveOrder(low, high)),
        ),
        family("saving doesn't refuse with [0]", numbers.map(SaveUnjudged)),
        family("saving judges with a slip ([0])", slips.map(Judging)),
    ]
}

/// Mistakes in what reading refuses. A file without a header has no registers.
pub fn read_families() -> Vec<Family<SnapshotMistake>> {
    use SnapshotMistake::*;
    let numbers = [1, 13, 14, 15, 16];
    let orders = pairs(&numbers).into_iter().filter(|pair| *pair != (13, 16));
    let loose = |nth: usize| Loose::ALL.map(|loose| (nth, loose));
    vec![
        family(
            "of reading's refusals [1] is given before [0]",
            orders.map(|(low, high)| ReadOrder(low, high)),
        ),
        family("reading doesn't refuse with [0]", numbers.map(ReadUnjudged)),
        family("offset [0] is not judged", (0..4).map(OffsetUnjudged)),
        family("offset [0] is judged by its lower half", (0..4).map(OffsetLowHalf)),
        family(
            "flag, mark, stop reason or cause [0] is judged loosely ([1])",
            bounded().flat_map(|(nth, _)| loose(nth)).map(|(nth, loose)| LooseNumber(nth, loose)),
        ),
        family(
            "right [0] is judged loosely ([1])",
            (0..2).flat_map(loose).map(|(nth, loose)| LooseRight(nth, loose)),
        ),
    ]
}
