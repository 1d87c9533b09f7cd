//! Counting a run's table walks, and what document 02's bounds on them speak of.
//! Document 02, item 6.

use crate::machine::Machine;
use crate::mistake::Mistake;
use crate::types::{Access, Cause, Registers, Stop, CAPACITY};
use std::collections::BTreeSet;

/// What came of a run's accesses with paging on. The run reports `made`; nothing
/// of it is part of the record.
#[derive(Clone, Debug, Default)]
pub struct Walks {
    /// How often "paging on, no usable entry" sent an access to the tables.
    pub made: u64,
    /// Those of them that ended in a fault.
    pub faulted: u64,
    /// Accesses that an entry served.
    pub hits: u64,
    /// The different pages for which an entry was kept.
    pub entered: BTreeSet<u32>,
    /// Whether the run began with an empty buffer; the table reader has none.
    pub from_empty: bool,
    /// Whether a PDIR or SPAG took effect: one that faults empties nothing.
    pub emptied: bool,
    /// Whether a store of demand 3's kind was made.
    pub held_store: bool,
    /// Walks of the last step, and those of them that a frame's slots made.
    pub in_step: u64,
    pub by_slots: u64,
}

impl Walks {
    /// What the second bound asks of a run and this one lacks: an empty buffer
    /// at its start, no PDIR or SPAG, no store of demand 3's kind, at most 64
    /// different pages entered.
    pub fn lacking(&self) -> [bool; 4] {
        [!self.from_empty, self.emptied, self.held_store, self.entered.len() > CAPACITY]
    }

    /// "Twice the pages entered plus the walks that ended in a fault."
    pub fn bound(&self) -> u64 {
        2 * self.entered.len() as u64 + self.faulted
    }
}

/// A walk: what it was for, whether its page had an entry, which then didn't
/// serve, and why it was refused if it was.
pub struct Walk {
    pub access: Access,
    pub user: bool,
    pub held: bool,
    pub cause: Option<Cause>,
}

impl Machine {
    /// A run counts from 0. What the one before it reported comes back.
    pub fn begin_walks(&mut self) -> u64 {
        let last = self.walks.made;
        let from_empty = self.buffer.as_ref().is_some_and(|buffer| buffer.count == 0);
        let made = self.pick(Mistake::WalksOutlastRuns, last, 0);
        self.walks = Walks { made, from_empty, ..Walks::default() };
        last
    }

    /// The number that a run reports.
    pub fn reported_walks(&self, answer: u32, steps: u64, last: u64) -> u64 {
        match self.mistake {
            Some(Mistake::RefusedRepeatsWalks) if answer != 0 => last,
            Some(Mistake::IdleRunRepeatsWalks) if answer == 0 && steps == 0 => last,
            Some(Mistake::WalksInBits(bits)) => self.walks.made & ((1 << bits) - 1),
            _ => self.walks.made,
        }
    }

    pub fn begin_step_walks(&mut self) {
        self.walks.in_step = 0;
        self.walks.by_slots = 0;
    }

    /// Every walk counts, whatever it was for and whatever came of it.
    pub fn count_walk(&mut self, walk: Walk) {
        self.walks.in_step += 1;
        self.walks.faulted += u64::from(walk.cause.is_some());
        self.walks.made += u64::from(!self.misread_walk(&walk));
        self.coverage.walk(walk.access, walk.user, walk.cause.is_none());
    }

    /// The walks of a frame's slot, one or none. `nth` is 0 for the pc's slot.
    pub fn count_slot(&mut self, nth: u8, walks: u64) {
        self.walks.by_slots += walks;
        if self.makes(Mistake::SlotUncounted(nth)) {
            self.walks.made -= walks;
        }
    }

    /// Planted mistakes only: walks that would not be counted.
    fn misread_walk(&self, walk: &Walk) -> bool {
        match self.mistake {
            Some(Mistake::FaultedWalksUncounted) => walk.cause.is_some(),
            Some(Mistake::CauseUncounted(cause)) => walk.cause == Some(cause),
            Some(Mistake::HeldPageUncounted) => walk.held,
            Some(Mistake::WalksUncounted(access, user)) => {
                (walk.access, walk.user) == (access, user)
            }
            _ => false,
        }
    }

    /// Planted mistakes only: an access without a walk that would be counted.
    pub fn misread_unwalked(&mut self, mistake: Mistake) {
        self.walks.made += u64::from(self.makes(mistake));
    }

    /// Planted mistake only: walks undone with a faulting instruction.
    pub fn misread_fault_walks(&mut self) {
        if self.makes(Mistake::FaultUndoesWalks) {
            self.walks.made -= self.walks.in_step;
        }
    }

    /// Planted mistakes only: a step's walks counted otherwise, by the registers
    /// before it and whether it was an interrupt's.
    pub fn misread_step_walks(&mut self, start: &Registers, interrupt: bool) {
        let Walks { made, in_step, by_slots, .. } = self.walks;
        let key = self.regs.keys > start.keys;
        let stop = self.regs.stop;
        self.walks.made = match self.mistake {
            Some(Mistake::OneWalkAStep) => made - in_step.saturating_sub(1),
            Some(Mistake::SlotsUncounted) => made - by_slots,
            Some(Mistake::SlotsCountOnce) => made - by_slots.saturating_sub(1),
            Some(Mistake::InterruptUncounted) if interrupt => made - in_step,
            Some(Mistake::RefusedFrameUncounted) if stop == Stop::NoFrame => made - by_slots,
            Some(Mistake::StopUncounted(of)) if stop == of => made - in_step,
            Some(Mistake::KeyStepUncounted) if key => made - in_step,
            Some(Mistake::KeyRestartsWalks) if key => in_step,
            Some(Mistake::KeyDoublesWalks) if key => made + (made - in_step),
            _ => made,
        };
    }
}
