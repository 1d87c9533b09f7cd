//! Operand accesses: translate, drop low bits, read or store. A fault sets
//! vadr to the address asked, the cause beside it, and ends the instruction.

use crate::coverage::Storer;
use crate::machine::Machine;
use crate::mistake::Mistake;
use crate::translate::{A, D};
use crate::types::{Access, Cause, Trap, PAGE};
use crate::words;

impl Machine {
    /// Translates in the current mode. `size` is 1, 2, 4 or 8; the physical
    /// address comes back with its low bits dropped to that size, so that no access
    /// lies on two pages.
    pub fn reach(&mut self, address: u32, access: Access, size: u32) -> Result<u32, Trap> {
        let user = self.is_by_user(access);
        match self.translate(address, access, user) {
            Ok(physical) => Ok(self.misplaced(physical, access, size)),
            Err(fault) => {
                let dropped = address & !(size - 1);
                let misread = self.makes(Mistake::VadrLowBitsDropped)
                    || self.makes(Mistake::VadrDropped(self.opcode))
                    || (size == 8 && self.makes(Mistake::DoubleVadrDropped));
                let vadr = if misread { dropped } else { address };
                self.coverage.causes.refused(fault.cause, access, user);
                self.refuse(vadr, self.misnamed(fault, address, access, user));
                Err(fault.trap)
            }
        }
    }

    /// vadr and the cause are set here, together, and nowhere else.
    pub fn refuse(&mut self, vadr: u32, cause: Cause) {
        self.regs.vadr = vadr;
        self.regs.cause = cause;
    }

    fn is_by_user(&self, access: Access) -> bool {
        let as_kernel = access != Access::Fetch && self.makes(Mistake::AsKernel(self.opcode));
        self.regs.user && !as_kernel
    }

    pub fn read(&mut self, address: u32, size: u32) -> Result<u32, Trap> {
        let read = Access::Read;
        let access = self.pick(Mistake::ReadsAsWrite(self.opcode), Access::Write, read);
        let physical = self.reach(address, access, size)?;
        Ok(words::get(&self.memory, physical, size))
    }

    /// Eight bytes, by one translation of the address asked.
    pub fn read_double(&mut self, address: u32) -> Result<u64, Trap> {
        let read = Access::Read;
        let access = self.pick(Mistake::ReadsAsWrite(self.opcode), Access::Write, read);
        let physical = self.reach(address, access, 8)?;
        self.coverage.floats.reached(address, false);
        Ok(self.misordered(words::get_double(&self.memory, physical)))
    }

    pub fn write(&mut self, address: u32, size: u32, value: u32) -> Result<(), Trap> {
        let write = Access::Write;
        let access = self.pick(Mistake::WritesAsRead(self.opcode), Access::Read, write);
        let physical = self.reach(address, access, size)?;
        self.store(physical, size, value.into(), Storer::Instruction);
        self.misread_marks(address);
        Ok(())
    }

    pub fn write_double(&mut self, address: u32, value: u64) -> Result<(), Trap> {
        let write = Access::Write;
        let access = self.pick(Mistake::WritesAsRead(self.opcode), Access::Read, write);
        let physical = self.reach(address, access, 8)?;
        self.coverage.floats.reached(address, true);
        self.store(physical, 8, self.misordered(value), Storer::Instruction);
        self.misread_marks(address);
        Ok(())
    }

    /// A store at a translated address, noted if it is of demand 3's kind: if
    /// it writes a byte of a word of an entry held now, after its translation.
    pub fn store(&mut self, physical: u32, size: u32, value: u64, storer: Storer) {
        if self.is_held_word(physical, size) {
            self.coverage.held_stores[storer as usize] += 1;
            self.held_store.get_or_insert(self.regs.count);
            self.walks.held_store = true;
        }
        words::put_double(&mut self.memory, physical, size, value);
    }

    /// Planted mistake only: the walk's marks, once more, after the store.
    fn misread_marks(&mut self, address: u32) {
        let Some(buffer) = &self.buffer else { return };
        let at = buffer.position(address / PAGE);
        let origin = at.and_then(|at| buffer.slots[at].origin);
        if let (true, Some(origin)) = (self.makes(Mistake::MarksAfterStore), origin) {
            self.mark(origin.directory, A);
            self.mark(origin.table, A | D);
        }
    }

    fn is_held_word(&self, physical: u32, size: u32) -> bool {
        let overlaps = |word: u32| physical < word + 4 && word < physical + size;
        let Some(buffer) = &self.buffer else { return false };
        let origins = buffer.entries().iter().filter_map(|entry| entry.origin);
        origins.into_iter().any(|origin| overlaps(origin.directory) || overlaps(origin.table))
    }
}
