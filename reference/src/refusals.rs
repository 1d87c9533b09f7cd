//! Document 01's refusals of a record, "Numbers returned": 1, 2, 3 and 5, which
//! runs and document 02's saved machines share, and which of several is given.

use crate::mistake::Mistake;
use crate::types::{Buffer, Entry, Record, Registers, CAPACITY, MAX_MEMORY, PAGE};

/// Refusal 1, shared by all calls that are lent a memory.
pub fn is_bad_memory(length: usize) -> bool {
    length == 0 || length % PAGE as usize != 0 || length > MAX_MEMORY
}

/// A record beside the lengths of the memory and console lent with it.
pub struct Judged<'a> {
    pub regs: &'a Registers,
    /// `None` in the table reader, to whose record no buffer belongs.
    pub buffer: Option<&'a Buffer>,
    pub memory: usize,
    pub console: usize,
    pub mistake: Option<Mistake>,
}

impl<'a> Judged<'a> {
    pub fn new(record: &'a Record, memory: usize, console: usize) -> Judged<'a> {
        let (regs, buffer) = (&record.regs, Some(&record.buffer));
        Judged { regs, buffer, memory, console, mistake: None }
    }
}

impl Judged<'_> {
    fn makes(&self, mistake: Mistake) -> bool {
        self.mistake == Some(mistake)
    }

    fn pick<T>(&self, mistake: Mistake, planted: T, rule: T) -> T {
        if self.makes(mistake) {
            planted
        } else {
            rule
        }
    }

    /// Refusal 1.
    pub fn is_bad_size(&self) -> bool {
        let half_pages = self.memory % (PAGE as usize / 2) == 0 && self.memory != 0;
        is_bad_memory(self.memory) && !(half_pages && self.makes(Mistake::MemoryByHalfPages))
    }

    /// Refusal 2.
    pub fn is_bad_register(&self) -> bool {
        let regs = self.regs;
        let judged = regs.paging || !self.makes(Mistake::PdirFreeUnpaged);
        let multiples = [(regs.pc, 4), (regs.ivec, 4), (regs.sp, 8), (regs.usp, 8), (regs.ksp, 8)];
        let uneven = |(nth, (value, of)): (usize, (u32, u32))| {
            let loose = self.makes(Mistake::LooseField(nth as u8));
            let unjudged = self.makes(Mistake::UnjudgedField(nth as u8));
            value % (if loose { of / 2 } else { of }) != 0 && !unjudged
        };
        let even_pdir = self.pick(Mistake::LooseField(5), regs.pdir % 2048, regs.pdir % PAGE) == 0;
        let beyond = regs.pdir as usize >= self.memory;
        let marked = regs.iena && (regs.key_pending || regs.timer_pending);
        multiples.into_iter().enumerate().any(uneven)
            || (!even_pdir && judged)
            || (beyond && judged)
            || (marked && self.makes(Mistake::MarksJudged))
            || (!regs.mode && regs.f | regs.g != 0 && self.makes(Mistake::FloatsJudged))
            || (regs.count >= 1 << 63 && !self.makes(Mistake::UnjudgedField(5)))
    }

    /// Refusal 3. The table reader has no buffer, so it never comes there.
    pub fn is_bad_buffer(&self) -> bool {
        let Some(buffer) = self.buffer else { return false };
        let count = self.pick(Mistake::CountLowByte, buffer.count % 256, buffer.count) as usize;
        if count > CAPACITY && !self.makes(Mistake::GoodSlotsAboveCount) {
            return true;
        }
        let frames = self.memory / PAGE as usize;
        let bad = |entry: &Entry| {
            (entry.page >= 1 << 20 && !self.makes(Mistake::PageUnchecked))
                || (entry.frame as usize >= frames && !self.makes(Mistake::FrameUnchecked))
        };
        let counted = &buffer.slots[..count.min(CAPACITY)];
        let entries = self.pick(Mistake::SlotsPastCount, &buffer.slots[..], counted);
        let twice = |(at, entry): (usize, &Entry)| {
            let first = self.pick(Mistake::TwiceAdjacentOnly, at.saturating_sub(1), 0);
            entries[first..at].iter().any(|earlier| earlier.page == entry.page)
        };
        entries.iter().any(bad) || entries.iter().enumerate().any(twice)
    }

    /// Refusal 5.
    pub fn is_bad_console(&self) -> bool {
        let low = self.regs.written & 0xffff_ffff;
        self.pick(Mistake::WrittenLowHalf, low, self.regs.written) > self.console as u64
    }
}

/// The first number whose refusal applies, or 0.
pub fn lowest(refusals: &[(u32, bool)], mistake: Option<Mistake>) -> u32 {
    let mut applying = refusals.iter().filter(|refusal| refusal.1).map(|refusal| refusal.0);
    let first = applying.next().unwrap_or(0);
    match mistake {
        // Planted: the higher of two numbers is given where both apply.
        Some(Mistake::Order(low, high)) if first == low => {
            applying.find(|number| *number == high).unwrap_or(low)
        }
        _ => first,
    }
}
