//! A run's refusals.

use super::{Key, Machine};

/// Refusal 1, of runs and of loads.
pub(super) fn bad_size(size: usize) -> bool {
    size == 0 || !size.is_multiple_of(4096) || size > 1 << 27
}

impl Machine {
    /// The lowest number that applies, or 0.
    pub(super) fn refusal(&self, keys: &[Key], budget: u64) -> u32 {
        if bad_size(self.memory.len()) {
            1
        } else if self.bad_registers() {
            2
        } else if self.bad_buffer() {
            3
        } else if keys.windows(2).any(|pair| pair[0].step > pair[1].step) || self.taken > keys.len()
        {
            4
        } else if self.written > self.console.len() {
            5
        } else if budget > 1_000_000 {
            6
        } else {
            0
        }
    }

    fn bad_registers(&self) -> bool {
        [self.pc, self.ivec].iter().any(|x| x % 4 != 0)
            || [self.sp, self.usp, self.ksp].iter().any(|x| x % 8 != 0)
            || !self.pdir.is_multiple_of(4096)
            || self.pdir as usize >= self.memory.len()
            || self.count >= 1 << 63
    }

    fn bad_buffer(&self) -> bool {
        let Some(entries) = self.entries.get(..self.held) else { return true };
        let frames = self.memory.len() / 4096;
        entries.iter().enumerate().any(|(at, entry)| {
            entry.page >= 1 << 20
                || entry.frame as usize >= frames
                || entries[at + 1..].iter().any(|later| later.page == entry.page)
        })
    }
}
