//! From an address to a physical address or a fault, and the walk through
//! directory and table. Document 01, "Addresses"; document 02, items 4 and 6, on
//! the causes and on what counts as a walk.

use crate::machine::Machine;
use crate::mistake::Mistake;
use crate::types::{Access, Cause, Entry, Fault, Origin, Trap, PAGE};
use crate::walks::Walk;
use crate::words;

/// Bits of directory and table words.
pub const P: u32 = 1;
pub const W: u32 = 2;
pub const U: u32 = 4;
pub const A: u32 = 0x20;
pub const D: u32 = 0x40;

/// The frame address in a directory or table word.
pub const FRAME: u32 = !(PAGE - 1);

/// Without P or a right: the access's page fault.
pub fn page_fault(access: Access, cause: Cause) -> Fault {
    let trap = match access {
        Access::Fetch => Trap::Fipage,
        Access::Read => Trap::Frpage,
        Access::Write => Trap::Fwpage,
    };
    Fault { trap, cause }
}

/// Beyond memory.
fn memory_fault(cause: Cause) -> Fault {
    Fault { trap: Trap::Fmem, cause }
}

impl Machine {
    /// A physical address or a fault, with the first cause in the order of the
    /// checks. The mode is told, since trap frames are written for the kernel;
    /// vadr and cause are left to the caller, since a refused frame slot sets
    /// neither.
    pub fn translate(&mut self, address: u32, access: Access, user: bool) -> Result<u32, Fault> {
        if !self.regs.paging {
            self.misread_unwalked(Mistake::UnpagedCounted);
            return self.translate_unpaged(address);
        }
        let (page, offset) = (address / PAGE, address % PAGE);
        if let Some(frame) = self.hit(page, access, user) {
            self.misread_reset(Mistake::HitForgetsCause);
            return Ok(frame * PAGE + offset);
        }
        self.misread_entry(page, access, user)?;
        let held = self.buffer.as_ref().is_some_and(|buffer| buffer.position(page).is_some());
        let answer = self.walk(address, access, user);
        self.count_walk(Walk { access, user, held, cause: answer.err().map(|fault| fault.cause) });
        if answer.is_err() {
            self.misread_fault(page);
        } else {
            self.misread_reset(Mistake::WalkForgetsCause);
        }
        Ok(answer? + offset)
    }

    fn translate_unpaged(&mut self, address: u32) -> Result<u32, Fault> {
        if address >= self.memory_size() {
            return Err(memory_fault(Cause::AddressBeyond));
        }
        if self.makes(Mistake::BuffersUnpaged) {
            let page = address / PAGE;
            self.keep(Entry { page, frame: page, user: true, write: true, origin: None });
        }
        Ok(address)
    }

    /// The frame address for a page without a usable entry, and the entry kept.
    fn walk(&mut self, address: u32, access: Access, user: bool) -> Result<u32, Fault> {
        let page = self.misread_page(address / PAGE);
        let directory_at = self.regs.pdir + 4 * (page >> 10);
        let directory = self.walk_directory(directory_at, access)?;
        // Read after the mark: a self-mapped directory word is its own table word.
        let table_at = (directory & FRAME) + 4 * (page & 0x3ff);
        let table = self.misread_frame(words::get(&self.memory, table_at, 4));
        if let Some(cause) = self.denial(directory, table, access, user) {
            if table & P != 0 && self.makes(Mistake::TableMarkOnFault) {
                self.mark(table_at, A);
            }
            return Err(page_fault(access, cause));
        }
        if self.makes(Mistake::DirectoryMarkLate) {
            self.mark(directory_at, A);
        }
        let marks = if access == Access::Write { A | D } else { A };
        let beyond = table & FRAME >= self.memory_size();
        if !(beyond && self.makes(Mistake::NoMarkBeforeFrameFault)) {
            self.mark(table_at, marks);
        }
        if beyond {
            let cause = Cause::FrameBeyond;
            let planted = page_fault(access, cause);
            return Err(self.pick(Mistake::FrameBeyondAsPage, planted, memory_fault(cause)));
        }
        let origin = Origin { directory: directory_at, table: table_at };
        self.keep_walked(address / PAGE, access, [directory, table | marks], origin);
        Ok(table & FRAME)
    }

    /// The directory word: present, marked, and its frame, the table, in memory.
    fn walk_directory(&mut self, at: u32, access: Access) -> Result<u32, Fault> {
        let directory = words::get(&self.memory, at, 4);
        if !self.present(directory) {
            return Err(page_fault(access, Cause::DirectoryAbsent));
        }
        if !self.makes(Mistake::DirectoryMarkLate) {
            let dirty = access == Access::Write && self.makes(Mistake::DirectoryDirty);
            self.mark(at, if dirty { A | D } else { A });
        }
        if directory & FRAME >= self.memory_size() {
            let cause = Cause::DirectoryBeyond;
            let planted = page_fault(access, cause);
            return Err(self.pick(Mistake::DirectoryBeyondAsPage, planted, memory_fault(cause)));
        }
        Ok(directory)
    }

    /// Sets marks in a word of the tables. No store of demand 3's kind.
    pub fn mark(&mut self, at: u32, marks: u32) {
        let word = words::get(&self.memory, at, 4);
        words::put(&mut self.memory, at, 4, word | marks);
    }

    /// Keeps the entry of a walk; the table word has the walk's own marks.
    fn keep_walked(&mut self, page: u32, access: Access, words: [u32; 2], origin: Origin) {
        let [directory, table] = words;
        self.keep(Entry {
            page,
            frame: table / PAGE,
            user: self.user_right(directory, table),
            write: self.write_right(directory, table, access),
            origin: Some(origin),
        });
    }

    /// What is missing first of: present; in user mode U in both words; for a
    /// write W in both words.
    fn denial(&self, directory: u32, table: u32, access: Access, user: bool) -> Option<Cause> {
        let both = match self.mistake {
            Some(Mistake::WriteByTableOnly) => table,
            Some(Mistake::WriteByDirectoryOnly) => directory,
            _ => directory & table,
        };
        let asks_w = access == Access::Write && (user || !self.makes(Mistake::KernelIgnoresW));
        if !self.present(table) {
            Some(Cause::TableAbsent)
        } else if user && !self.user_right(directory, table) {
            Some(Cause::NoUserRight)
        } else if asks_w && both & W == 0 {
            Some(Cause::NoWriteRight)
        } else {
            None
        }
    }

    fn present(&self, word: u32) -> bool {
        self.pick(Mistake::PresentIfNotZero, word != 0, word & P != 0)
    }

    fn user_right(&self, directory: u32, table: u32) -> bool {
        let both = match self.mistake {
            Some(Mistake::UserByTableOnly) => table,
            Some(Mistake::UserByDirectoryOnly) => directory,
            _ => directory & table,
        };
        both & U != 0
    }

    /// "write right, which needs W in both words and D in the table word",
    /// as that word stands after the walk's own marks.
    fn write_right(&self, directory: u32, marked: u32, access: Access) -> bool {
        let dirty = marked & D != 0 || self.makes(Mistake::ReadFillWritable);
        let by_write = match self.mistake {
            Some(Mistake::WriteRightByWriteOnly) => access == Access::Write,
            Some(Mistake::FetchKeepsNoWrite) => access != Access::Fetch,
            _ => true,
        };
        let both = match self.mistake {
            Some(Mistake::WriteRightByTableOnly) => marked,
            Some(Mistake::WriteRightByDirectoryOnly) => directory,
            _ => directory & marked,
        };
        both & W != 0 && dirty && by_write
    }

    /// Planted mistakes only: the page number that a walk follows.
    fn misread_page(&self, page: u32) -> u32 {
        match self.mistake {
            Some(Mistake::WalkDropsBit(bit)) => page & !(1 << bit),
            _ => page,
        }
    }

    /// Planted mistakes only: the frame that a table word names.
    fn misread_frame(&self, word: u32) -> u32 {
        match self.mistake {
            Some(Mistake::FrameDropsBit(bit)) => word & !(PAGE << bit),
            _ => word,
        }
    }
}
