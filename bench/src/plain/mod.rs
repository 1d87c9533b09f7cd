//! A plain, idiomatic interpreter of the rules of document 01 with items 1, 4, 6 and 7 of document 02: `&mut self` methods, a match on the opcode byte,
//! `Result` and `?`, slices with bounds checks, one byte at a time for block opcodes.

mod execute;
mod float;
mod load;
mod refusal;
mod translate;

pub use load::load;

use translate::Access;

/// The codes of the two interrupts.
const FTIMER: u32 = 1;
const FKEYBD: u32 = 2;

#[derive(Clone, Copy, Default)]
pub struct Entry {
    pub page: u32,
    pub frame: u32,
    pub user: bool,
    pub write: bool,
}

/// A fault: its code, and where an access was refused the cause and the address asked.
enum Fault {
    Code(u32),
    At(u32, u32, u32),
}

pub struct Key {
    pub step: u64,
    pub byte: u8,
}

#[derive(Clone)]
pub struct Machine {
    pub a: u32,
    pub b: u32,
    pub c: u32,
    pub sp: u32,
    pub usp: u32,
    pub ksp: u32,
    pub pc: u32,
    pub ivec: u32,
    pub pdir: u32,
    pub vadr: u32,
    pub timer: u32,
    pub timeout: u32,
    pub kbchar: u32,
    pub user: bool,
    pub iena: bool,
    pub paging: bool,
    pub waiting: bool,
    pub stop: u32,
    /// Why the access at vadr was refused: 0 none, then document 02's order.
    pub cause: u32,
    pub count: u64,
    /// Interrupts that await delivery: document 02 calls them marks.
    pub key_pending: bool,
    pub timer_pending: bool,
    /// Whether there are doubles: document 02, item 7.
    pub mode: bool,
    pub f: u64,
    pub g: u64,
    pub taken: usize,
    pub written: usize,
    pub held: usize,
    pub entries: [Entry; 64],
    /// Table walks of the run; no part of the record.
    pub walks: u64,
    pub memory: Vec<u8>,
    pub console: Vec<u8>,
}

/// What a run gives: the answer's number, the steps made and their table walks.
#[derive(Clone, Copy)]
pub struct Outcome {
    pub answer: u32,
    pub steps: u64,
    pub walks: u64,
}

impl Machine {
    /// The all-zero record, over a memory and a console.
    pub fn zero(memory: Vec<u8>, console: Vec<u8>) -> Machine {
        Machine {
            a: 0,
            b: 0,
            c: 0,
            sp: 0,
            usp: 0,
            ksp: 0,
            pc: 0,
            ivec: 0,
            pdir: 0,
            vadr: 0,
            timer: 0,
            timeout: 0,
            kbchar: 0,
            user: false,
            iena: false,
            paging: false,
            waiting: false,
            stop: 0,
            cause: 0,
            count: 0,
            key_pending: false,
            timer_pending: false,
            mode: false,
            f: 0,
            g: 0,
            taken: 0,
            written: 0,
            held: 0,
            entries: [Entry::default(); 64],
            walks: 0,
            memory,
            console,
        }
    }

    /// Unless it is refused, steps until the budget is used or the machine stops.
    pub fn run(&mut self, keys: &[Key], budget: u64) -> Outcome {
        let answer = self.refusal(keys, budget);
        let mut steps = 0;
        self.walks = 0;
        while answer == 0 && steps < budget && self.stop == 0 {
            self.step(keys);
            steps += 1;
        }
        Outcome { answer, steps, walks: self.walks }
    }

    fn step(&mut self, keys: &[Key]) {
        self.count += 1;
        if let Some(code) = self.clock(keys) {
            self.waiting = false;
            self.deliver(code, self.pc);
            return;
        }
        if self.waiting {
            return;
        }
        let pc = self.pc;
        let word = match self.translate(pc, Access::Fetch, self.user) {
            Ok(at) => self.word(at & !3),
            Err(fault) => return self.trap(fault, pc),
        };
        self.pc = pc.wrapping_add(4);
        if let Err(fault) = self.execute(word) {
            let next = self.pc;
            self.pc = pc;
            self.trap(fault, next);
        }
    }

    /// Keys and timer, whose events await delivery; the interrupt that is due.
    fn clock(&mut self, keys: &[Key]) -> Option<u32> {
        if let Some(key) = keys.get(self.taken).filter(|key| key.step <= self.count) {
            self.taken += 1;
            self.kbchar = key.byte as u32;
            self.key_pending = true;
        }
        if self.timeout != 0 {
            if self.timer >= self.timeout {
                self.timer = 0;
                self.timer_pending = true;
            } else {
                self.timer += 1;
            }
        }
        if !self.iena {
            None
        } else if self.key_pending {
            Some(FKEYBD)
        } else {
            self.timer_pending.then_some(FTIMER)
        }
    }

    fn trap(&mut self, fault: Fault, pc: u32) {
        let code = match fault {
            Fault::Code(code) => code,
            Fault::At(code, cause, address) => {
                self.vadr = address;
                self.cause = cause;
                code
            }
        };
        if self.iena {
            self.deliver(code, pc);
        } else {
            self.stop = 2;
        }
    }

    fn deliver(&mut self, code: u32, pc: u32) {
        let top = if self.user { self.ksp } else { self.sp };
        let Ok(first) = self.translate(top.wrapping_sub(8), Access::Write, false) else {
            self.stop = 3;
            return;
        };
        let Ok(second) = self.translate(top.wrapping_sub(16), Access::Write, false) else {
            self.stop = 3;
            return;
        };
        self.put_word(first, pc);
        self.put_word(second, if self.user { code + 16 } else { code });
        if self.user {
            self.usp = self.sp;
            self.user = false;
        }
        self.sp = top.wrapping_sub(16);
        self.iena = false;
        self.pc = self.ivec;
        match code {
            FKEYBD => self.key_pending = false,
            FTIMER => self.timer_pending = false,
            _ => {}
        }
    }
}
