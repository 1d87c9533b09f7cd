//! Rules 2 to 4 of a step: the next key, the timer, and the interrupt that is
//! due. Document 01, "One step", as document 02's item 1 changed it: an event
//! sets its mark, and what is due is read from the marks.

use crate::machine::Machine;
use crate::mistake::Mistake;
use crate::opcodes::decode::{decode, Op, System};
use crate::types::{Key, Trap, NO_KEY};
use crate::words::extend_byte;

impl Machine {
    /// Takes a due key, moves the timer, sets the marks of what came, and
    /// answers the interrupt that is due.
    pub fn clock(&mut self, keys: &[Key]) -> Option<Trap> {
        let key = self.take_key(keys);
        while key && self.makes(Mistake::AllDueKeys) && self.take_key(keys) {}
        let timer = self.move_timer();
        if key || timer {
            self.set_marks(key, timer);
        }
        let asleep = self.misread_waiting(key || timer);
        self.due().filter(|_| !asleep)
    }

    /// Takes the next key if its step number is at most the raised count.
    fn take_key(&mut self, keys: &[Key]) -> bool {
        // The run was not refused, so keys taken don't exceed the list.
        let Some(key) = keys.get(self.regs.keys as usize) else { return false };
        let count = self.pick(Mistake::KeyByOldCount, self.regs.count - 1, self.regs.count);
        let due = match self.mistake {
            Some(Mistake::KeyDueLowHalf) => key.step as u32 <= count as u32,
            Some(Mistake::KeyDueSigned) => key.step as i64 <= count as i64,
            Some(Mistake::MaskedKeyWaits) => key.step <= count && self.regs.iena,
            Some(Mistake::MarkedKeyWaits) => key.step <= count && !self.regs.key_pending,
            _ => key.step <= count,
        };
        if !due {
            return false;
        }
        let byte = u32::from(key.byte);
        let kbchar = self.pick(Mistake::KbcharSigned, extend_byte(byte), byte);
        let dropped = self.regs.key_pending && self.makes(Mistake::MarkedKeyDropped);
        self.regs.kbchar = if dropped { self.regs.kbchar } else { kbchar };
        self.regs.keys += 1;
        true
    }

    /// Whether the timer has run out; timeout 0 leaves it where it is.
    fn move_timer(&mut self) -> bool {
        let stands = self.regs.timer_pending && self.makes(Mistake::MarkedTimerStands);
        if self.regs.timeout == 0 || stands {
            return false;
        }
        let wrapped = u64::from(self.regs.timer.wrapping_add(1));
        let next = self.pick(Mistake::TimerWraps, wrapped, u64::from(self.regs.timer) + 1);
        let (timer, timeout) = (self.regs.timer, self.regs.timeout);
        let out = match self.mistake {
            Some(Mistake::TimerAtTimeoutOnly) => timer == timeout,
            Some(Mistake::TimerSigned) => i64::from(timer as i32) + 1 > i64::from(timeout as i32),
            _ => next > u64::from(timeout),
        };
        self.regs.timer = if out { 0 } else { next as u32 };
        out
    }

    /// "A key or timer event always sets its mark": whatever iena is, whatever
    /// else came and whatever stands.
    fn set_marks(&mut self, key: bool, timer: bool) {
        let [lost_key, lost_timer] = self.misread_events(key);
        let (key, timer) = (key && !lost_key, timer && !lost_timer);
        let stood = [self.regs.key_pending, self.regs.timer_pending];
        let set = [stood[0] | key, stood[1] | timer];
        let flipped = [stood[0] ^ key, stood[1] ^ timer];
        [self.regs.key_pending, self.regs.timer_pending] =
            self.pick(Mistake::EventFlipsMark, flipped, set);
    }

    /// "In a step with iena = 1 the first marked one, key before timer, is due."
    pub fn due(&self) -> Option<Trap> {
        let key = self.regs.key_pending.then_some(Trap::Fkeybd);
        let timer = self.regs.timer_pending.then_some(Trap::Ftimer);
        let first = self.pick(Mistake::TimerMarkFirst, timer.or(key), key.or(timer));
        let open = self.regs.iena || self.makes(Mistake::MarkDueMasked);
        first.filter(|trap| open && !self.misread_due(*trap))
    }

    /// Planted mistakes only: whether a key's event, and a timer's, is lost.
    fn misread_events(&self, key: bool) -> [bool; 2] {
        let masked = |mistake: Mistake| self.makes(mistake) && !self.regs.iena;
        let both = masked(Mistake::MaskedSetsNothing);
        let beside = key && self.makes(Mistake::TimerLostBesideKey);
        [
            both || masked(Mistake::MaskedKeySetsNothing),
            both || masked(Mistake::MaskedTimerSetsNothing) || beside,
        ]
    }

    /// Planted mistakes only: other readings of what ends waiting. Whether the
    /// machine waits on though something is due.
    fn misread_waiting(&mut self, event: bool) -> bool {
        let marked = self.regs.key_pending || self.regs.timer_pending;
        if marked && self.makes(Mistake::MaskedMarkWakes) {
            self.regs.waiting = false;
        }
        self.regs.waiting && !event && self.makes(Mistake::WaitAsksEvent)
    }

    /// Planted mistakes only: marks that would not be due.
    fn misread_due(&self, trap: Trap) -> bool {
        match self.mistake {
            Some(Mistake::MarkAsksTimeout) => trap == Trap::Ftimer && self.regs.timeout == 0,
            Some(Mistake::MarkAsksKey) => trap == Trap::Fkeybd && self.regs.kbchar == NO_KEY,
            Some(Mistake::StiDelaysMark) => {
                matches!(decode(self.opcode), Some(Op::System(System::Sti)))
            }
            _ => false,
        }
    }
}
