//! Addresses: the page buffer, the walk, loads and stores.

use super::{Entry, Fault, Machine};

#[derive(Clone, Copy, PartialEq)]
pub(super) enum Access {
    Fetch,
    Write,
    Read,
}

impl Access {
    /// The code of its page fault.
    fn page_fault(self) -> u32 {
        match self {
            Access::Fetch => 7,
            Access::Write => 8,
            Access::Read => 9,
        }
    }
}

impl Machine {
    pub(super) fn word(&self, at: usize) -> u32 {
        u32::from_le_bytes(self.memory[at..at + 4].try_into().unwrap())
    }

    pub(super) fn put_word(&mut self, at: usize, value: u32) {
        self.memory[at..at + 4].copy_from_slice(&value.to_le_bytes());
    }

    pub(super) fn translate(
        &mut self,
        va: u32,
        access: Access,
        user: bool,
    ) -> Result<usize, Fault> {
        if !self.paging {
            return if (va as usize) < self.memory.len() {
                Ok(va as usize)
            } else {
                Err(Fault::At(0, 1, va))
            };
        }
        if let Some(entry) = self.entries[..self.held].iter().find(|entry| entry.page == va >> 12) {
            if (!user || entry.user) && (access != Access::Write || entry.write) {
                return Ok(((entry.frame << 12) + (va & 0xFFF)) as usize);
            }
        }
        self.walk(va, access, user)
    }

    fn walk(&mut self, va: u32, access: Access, user: bool) -> Result<usize, Fault> {
        self.walks += 1;
        let page_fault = access.page_fault();
        let directory_at = (self.pdir + 4 * (va >> 22)) as usize;
        let directory = self.word(directory_at);
        if directory & 1 == 0 {
            return Err(Fault::At(page_fault, 2, va));
        }
        self.put_word(directory_at, directory | 0x20);
        let frame = (directory & !0xFFF) as usize;
        if frame >= self.memory.len() {
            return Err(Fault::At(0, 3, va));
        }
        let table_at = frame + (4 * ((va >> 12) & 0x3FF)) as usize;
        let table = self.word(table_at);
        let both = table & directory;
        let write = access == Access::Write;
        if table & 1 == 0 {
            return Err(Fault::At(page_fault, 4, va));
        }
        if user && both & 4 == 0 {
            return Err(Fault::At(page_fault, 5, va));
        }
        if write && both & 2 == 0 {
            return Err(Fault::At(page_fault, 6, va));
        }
        let marked = if write { table | 0x60 } else { table | 0x20 };
        self.put_word(table_at, marked);
        let frame = table & !0xFFF;
        if frame as usize >= self.memory.len() {
            return Err(Fault::At(0, 7, va));
        }
        self.keep(Entry {
            page: va >> 12,
            frame: frame >> 12,
            user: both & 4 != 0,
            write: both & 2 != 0 && marked & 0x40 != 0,
        });
        Ok((frame + (va & 0xFFF)) as usize)
    }

    fn keep(&mut self, entry: Entry) {
        if let Some(at) = self.entries[..self.held].iter().position(|held| held.page == entry.page)
        {
            self.entries[at] = entry;
            return;
        }
        if self.held == 64 {
            self.held = 0;
        }
        self.entries[self.held] = entry;
        self.held += 1;
    }

    pub(super) fn read32(&mut self, va: u32) -> Result<u32, Fault> {
        let at = self.translate(va, Access::Read, self.user)?;
        Ok(self.word(at & !3))
    }

    pub(super) fn read64(&mut self, va: u32) -> Result<u64, Fault> {
        let at = self.translate(va, Access::Read, self.user)? & !7;
        Ok(u64::from_le_bytes(self.memory[at..at + 8].try_into().unwrap()))
    }

    pub(super) fn read16(&mut self, va: u32) -> Result<u16, Fault> {
        let at = self.translate(va, Access::Read, self.user)? & !1;
        Ok(u16::from_le_bytes(self.memory[at..at + 2].try_into().unwrap()))
    }

    pub(super) fn read8(&mut self, va: u32) -> Result<u8, Fault> {
        let at = self.translate(va, Access::Read, self.user)?;
        Ok(self.memory[at])
    }

    pub(super) fn write32(&mut self, va: u32, value: u32) -> Result<(), Fault> {
        let at = self.translate(va, Access::Write, self.user)?;
        self.put_word(at & !3, value);
        Ok(())
    }

    pub(super) fn write64(&mut self, va: u32, value: u64) -> Result<(), Fault> {
        let at = self.translate(va, Access::Write, self.user)? & !7;
        self.memory[at..at + 8].copy_from_slice(&value.to_le_bytes());
        Ok(())
    }

    pub(super) fn write16(&mut self, va: u32, value: u16) -> Result<(), Fault> {
        let at = self.translate(va, Access::Write, self.user)? & !1;
        self.memory[at..at + 2].copy_from_slice(&value.to_le_bytes());
        Ok(())
    }

    pub(super) fn write8(&mut self, va: u32, value: u8) -> Result<(), Fault> {
        let at = self.translate(va, Access::Write, self.user)?;
        self.memory[at] = value;
        Ok(())
    }
}
