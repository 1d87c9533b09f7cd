//! A run: refusals in their order, then steps. Document 01, "Numbers returned";
//! document 02, item 6, on the walks reported.

use crate::machine::Machine;
use crate::mistake::Mistake;
use crate::refusals::{lowest, Judged};
use crate::types::{Key, Stop, MAX_BUDGET};

/// Answer number, reported steps and table walks.
#[derive(Clone, Copy, Debug, PartialEq, Eq)]
pub struct Outcome {
    pub answer: u32,
    pub steps: u64,
    pub walks: u64,
}

impl Machine {
    /// A refused run changes nothing; nor does one that starts stopped or has
    /// budget 0.
    pub fn run(&mut self, keys: &[Key], budget: u64) -> Outcome {
        let answer = self.answer(keys, budget);
        let first = self.regs.count;
        let last_walks = self.begin_walks();
        if answer == 0 && self.rules_answer(keys, budget) == 0 {
            let mut left = budget;
            if self.regs.stop == Stop::Masked && self.makes(Mistake::StopsFreeFrom2) {
                self.regs.stop = Stop::Running;
            }
            if self.makes(Mistake::MarksLastARun) {
                self.regs.key_pending = false;
                self.regs.timer_pending = false;
            }
            self.misread_reset(Mistake::CauseLastsARun);
            self.misread_start();
            while left > 0 && self.regs.stop == Stop::Running {
                self.step(keys);
                left -= 1;
            }
        }
        let steps = self.regs.count - first;
        let walks = self.reported_walks(answer, steps, last_walks);
        self.coverage.end(answer, steps, self.regs.stop);
        self.coverage.walked.run(&self.walks);
        Outcome { answer, steps, walks }
    }

    /// The answer without a planted mistake: where that leaves a refusal out,
    /// no step is made, for the machine may not be able to.
    fn rules_answer(&mut self, keys: &[Key], budget: u64) -> u32 {
        let planted = self.mistake.take();
        let answer = self.answer(keys, budget);
        self.mistake = planted;
        answer
    }

    /// The lowest number that applies, or 0.
    pub fn answer(&self, keys: &[Key], budget: u64) -> u32 {
        if (budget == 0 && self.makes(Mistake::ZeroBudgetFirst))
            || (self.regs.stop != Stop::Running && self.makes(Mistake::StoppedFirst))
        {
            return 0;
        }
        let asked = self.pick(Mistake::BudgetLowHalf, budget & 0xffff_ffff, budget);
        let judged = self.judged();
        let refusals = [
            (1, judged.is_bad_size()),
            (2, judged.is_bad_register()),
            (3, judged.is_bad_buffer()),
            (4, self.is_bad_key_list(keys)),
            (5, judged.is_bad_console()),
            (6, asked > MAX_BUDGET),
        ];
        lowest(&refusals, self.mistake)
    }

    /// The record beside what is lent, for the refusals that need no more.
    fn judged(&self) -> Judged<'_> {
        Judged {
            regs: &self.regs,
            buffer: self.buffer.as_ref(),
            memory: self.memory.len(),
            console: self.console.len(),
            mistake: self.mistake,
        }
    }

    /// The whole list is judged, taken keys included; equal numbers pass.
    fn is_bad_key_list(&self, keys: &[Key]) -> bool {
        let low = self.regs.keys & 0xffff_ffff;
        let taken = self.pick(Mistake::TakenLowHalf, low, self.regs.keys);
        if taken > keys.len() as u64 {
            return true;
        }
        let first = self.pick(Mistake::TakenKeysUnchecked, taken as usize, 0);
        let last =
            keys.len() - usize::from(self.makes(Mistake::LastKeyUnjudged) && !keys.is_empty());
        let falls = |pair: &[Key]| match self.mistake {
            Some(Mistake::KeysByLowHalf) => pair[0].step as u32 > pair[1].step as u32,
            Some(Mistake::KeysSigned) => pair[0].step as i64 > pair[1].step as i64,
            _ => pair[0].step > pair[1].step,
        };
        keys[first.min(last)..last].windows(2).any(falls)
    }
}
