//! Planted mistakes about causes, and nothing else: the rules of document 02's
//! item 4 are in `translate.rs`, `access.rs` and `exec/system.rs`.

use crate::coverage::Storer;
use crate::machine::Machine;
use crate::mistake::Mistake;
use crate::translate::{page_fault, FRAME, P, U, W};
use crate::types::{Access, Cause, Fault, Trap, PAGE};
use crate::words;

/// An access to a page: its directory word, its table word, what is asked.
#[derive(Clone, Copy)]
struct Asked {
    directory: u32,
    table: u32,
    write: bool,
    user: bool,
}

impl Asked {
    /// Whether this check fails, whatever the others do.
    fn fails(&self, cause: Cause, memory_size: u32) -> bool {
        let both = self.directory & self.table;
        match cause {
            Cause::None | Cause::AddressBeyond => false,
            Cause::DirectoryAbsent => self.directory & P == 0,
            Cause::DirectoryBeyond => self.directory & FRAME >= memory_size,
            Cause::TableAbsent => self.table & P == 0,
            Cause::NoUserRight => self.user && both & U == 0,
            Cause::NoWriteRight => self.write && both & W == 0,
            Cause::FrameBeyond => self.table & FRAME >= memory_size,
        }
    }

    /// The first failing check; the last where it is not seen to fail.
    fn first(&self, memory_size: u32) -> Cause {
        let fails = |cause: &Cause| self.fails(*cause, memory_size);
        Cause::ALL.into_iter().find(fails).unwrap_or(Cause::FrameBeyond)
    }
}

impl Machine {
    /// The cause that a refused access leaves.
    pub fn misnamed(&self, fault: Fault, address: u32, access: Access, user: bool) -> Cause {
        let (cause, old) = (fault.cause, self.regs.cause);
        match self.mistake {
            Some(Mistake::CauseNamed(of, named, by, in_user)) => {
                if (of, by, in_user) == (cause, access, user) {
                    named
                } else {
                    cause
                }
            }
            Some(Mistake::PageCausesOnly) if fault.trap == Trap::Fmem => old,
            Some(Mistake::UnpagedKeepsCause) if !self.regs.paging => old,
            Some(Mistake::FirstCauseStays) if old != Cause::None => old,
            Some(Mistake::EntryNames) if self.regs.paging => {
                self.entry_denial(address / PAGE, access, user).unwrap_or(cause)
            }
            _ if self.regs.paging => self.misjudged(cause, self.asked(address, access, user)),
            _ => cause,
        }
    }

    /// The cause that PDIR's own fault leaves.
    pub fn misnamed_pdir(&self, cause: Cause) -> Cause {
        match self.mistake {
            Some(Mistake::PdirCause(other)) => other,
            Some(Mistake::PdirKeepsCause | Mistake::PageCausesOnly) => self.regs.cause,
            _ => cause,
        }
    }

    /// Other orders of the checks, other readings of the rights.
    fn misjudged(&self, cause: Cause, asked: Asked) -> Cause {
        let Asked { directory, table, .. } = asked;
        let misread = match self.mistake {
            Some(Mistake::CauseOrder(low, high)) => {
                let both = cause == low && asked.fails(high, self.memory_size());
                return if both { high } else { cause };
            }
            Some(Mistake::UserCauseByTable) => Asked { directory: directory | U, ..asked },
            Some(Mistake::UserCauseByDirectory) => Asked { table: table | U, ..asked },
            Some(Mistake::WriteCauseByTable) => Asked { directory: directory | W, ..asked },
            Some(Mistake::WriteCauseByDirectory) => Asked { table: table | W, ..asked },
            Some(Mistake::UserCauseInKernel) => Asked { user: true, ..asked },
            Some(Mistake::WriteCauseInReads) => Asked { write: true, ..asked },
            _ => return cause,
        };
        misread.first(self.memory_size())
    }

    /// A table beyond memory has no word; it stands for one with all rights.
    fn asked(&self, address: u32, access: Access, user: bool) -> Asked {
        let page = address / PAGE;
        let directory = words::get(&self.memory, self.regs.pdir + 4 * (page >> 10), 4);
        let beyond = directory & FRAME >= self.memory_size();
        let table_at = (directory & FRAME) + 4 * (page & 0x3ff);
        let table = if beyond { P | W | U } else { words::get(&self.memory, table_at, 4) };
        Asked { directory, table, write: access == Access::Write, user }
    }

    /// What the page's entry lacks for an access that it doesn't serve.
    fn entry_denial(&self, page: u32, access: Access, user: bool) -> Option<Cause> {
        let buffer = self.buffer.as_ref()?;
        let entry = buffer.slots[buffer.position(page)?];
        let no_write = access == Access::Write && !entry.write;
        let no_user = (user && !entry.user).then_some(Cause::NoUserRight);
        no_user.or(no_write.then_some(Cause::NoWriteRight))
    }

    /// An entry without the right that refuses, so that nothing is walked.
    pub fn misread_entry(&self, page: u32, access: Access, user: bool) -> Result<(), Fault> {
        match self.entry_denial(page, access, user) {
            Some(cause) if self.makes(Mistake::EntryRefuses) => Err(page_fault(access, cause)),
            _ => Ok(()),
        }
    }

    /// A trap, after its delivery or stop, that sets the cause back.
    pub fn misread_trap(&mut self, trap: Trap) {
        self.misread_reset(Mistake::TrapForgetsCause(trap, self.regs.stop));
    }

    /// The cause set back, if this is the mistake.
    pub fn misread_reset(&mut self, mistake: Mistake) {
        if self.makes(mistake) {
            self.regs.cause = Cause::None;
        }
    }

    /// The upper half of a frame's code slot, which keeps its bytes.
    pub fn misread_code_slot(&mut self, code_at: u32) {
        if self.makes(Mistake::FrameHoldsCause) {
            self.store(code_at + 4, 4, self.regs.cause as u64, Storer::Frame);
        }
    }
}
