//! The page buffer: which entry serves, how one is kept, when it is emptied.
//! Document 01, "Addresses".

use crate::coverage::Emptied;
use crate::machine::Machine;
use crate::mistake::Mistake;
use crate::types::{Access, Buffer, Entry, CAPACITY};

impl Buffer {
    /// The counted entries. A refused record may count more than it has slots.
    pub fn entries(&self) -> &[Entry] {
        &self.slots[..CAPACITY.min(self.count as usize)]
    }

    pub fn position(&self, page: u32) -> Option<usize> {
        self.entries().iter().position(|entry| entry.page == page)
    }

    /// Takes an entry out; the later ones move up. No rule does this.
    fn remove(&mut self, at: usize) {
        self.slots[at..].rotate_left(1);
        self.count -= 1;
    }
}

impl Entry {
    /// "An entry serves a read (fetch included) in kernel mode or if it has
    /// user right, a write if write right is there too."
    fn serves(&self, access: Access, user: bool) -> bool {
        (!user || self.user) && (access != Access::Write || self.write)
    }
}

impl Machine {
    /// The frame of the page's entry, if that entry is held and serves.
    pub fn hit(&mut self, page: u32, access: Access, user: bool) -> Option<u32> {
        let buffer = self.buffer.as_ref()?;
        let entry = buffer.slots[self.found(buffer, page)?];
        if !entry.serves(access, user) && !self.misread_rights(&entry, access, user) {
            return None;
        }
        self.coverage.hit(access, user);
        self.walks.hits += 1;
        self.misread_unwalked(Mistake::HitsCounted);
        Some(entry.frame)
    }

    /// Keeps an entry: in the place of the same page's, else after the others,
    /// of which there are none left if 64 were held.
    pub fn keep(&mut self, entry: Entry) {
        let (go_last, evict) =
            (self.makes(Mistake::ReplacedGoesLast), self.makes(Mistake::OldestEvicted));
        let Some(buffer) = &mut self.buffer else { return };
        self.walks.entered.insert(entry.page);
        if let Some(at) = buffer.position(entry.page) {
            self.coverage.replaced += 1;
            if !go_last {
                buffer.slots[at] = entry;
                return;
            }
            buffer.remove(at);
        }
        if buffer.count as usize == CAPACITY {
            if evict {
                buffer.remove(0);
            } else {
                self.empty(Emptied::Full);
            }
        }
        let Some(buffer) = &mut self.buffer else { return };
        buffer.slots[buffer.count as usize] = entry;
        buffer.count += 1;
        self.coverage.added += 1;
    }

    pub fn empty(&mut self, why: Emptied) {
        let Some(buffer) = &mut self.buffer else { return };
        if buffer.count > 0 {
            self.coverage.emptied[why as usize] += 1;
        }
        buffer.count = 0;
        if self.makes(Mistake::EmptyingRestartsWalks(why)) {
            self.walks.made = 0;
        }
    }

    /// The place of the page's entry.
    fn found(&self, buffer: &Buffer, page: u32) -> Option<usize> {
        if let Some(Mistake::HitDropsBit(bit)) = self.mistake {
            let alike = |entry: &Entry| (entry.page ^ page) & !(1 << bit) == 0;
            return buffer.entries().iter().position(alike);
        }
        buffer.position(page)
    }

    /// Planted mistakes only: entries that serve though they lack a right.
    fn misread_rights(&self, entry: &Entry, access: Access, user: bool) -> bool {
        let write = access == Access::Write;
        self.makes(Mistake::RightsIgnoredOnHit)
            || (self.makes(Mistake::FetchHitIgnoresUser) && access == Access::Fetch)
            || (self.makes(Mistake::WriteHitIgnoresUser) && write && entry.write)
            || (self.makes(Mistake::WriteHitIgnoresWrite) && write && (!user || entry.user))
    }

    /// Planted mistakes only: what a faulting walk might do to the buffer.
    pub fn misread_fault(&mut self, page: u32) {
        let drops = self.makes(Mistake::FaultDropsEntry);
        let empties = self.makes(Mistake::FaultEmptiesFull);
        let Some(buffer) = &mut self.buffer else { return };
        match buffer.position(page) {
            Some(at) if drops => buffer.remove(at),
            None if empties && buffer.count as usize == CAPACITY => buffer.count = 0,
            _ => {}
        }
    }
}
