//! What runs have reached, counted: a comparison that covers nothing of a kind
//! shows nothing about it.

mod causes;
mod floats;
mod marks;
mod opcodes;
mod walks;

use crate::types::{Access, Registers, Stop, Trap};
use crate::walks::Walks;
use causes::Causes;
use floats::Floats;
use marks::Marks;
use std::fmt::Arguments;
use walks::Walked;

/// Who made a store: an instruction or a trap frame.
#[derive(Clone, Copy, Debug, PartialEq, Eq)]
pub enum Storer {
    Instruction = 0,
    Frame = 1,
}

/// Why the buffer was emptied.
#[derive(Clone, Copy, Debug, PartialEq, Eq)]
pub enum Emptied {
    Full = 0,
    Pdir = 1,
    Spag = 2,
}

/// Whether a count must be above zero.
#[derive(Clone, Copy, Debug, PartialEq, Eq, PartialOrd)]
pub enum Due {
    /// It need not or can't be.
    Never = 0,
    /// In runs by the ten thousand.
    InBulk = 1,
    Always = 2,
}

/// Counts by access (fetch, read, write) and mode (kernel, user).
type ByAccess = [[u64; 2]; 3];
/// Counts by mode, paging (off, on) and end (completed, faulted).
type BySetting = [[[u64; 2]; 2]; 2];

#[derive(Clone, Debug)]
pub struct Coverage {
    pub runs: u64,
    pub loads: u64,
    pub steps: u64,
    /// Executed instructions by item 7's mode and opcode.
    pub opcodes: [[BySetting; 256]; 2],
    pub hits: ByAccess,
    pub walks_kept: ByAccess,
    pub walks_faulted: ByAccess,
    /// Steps by their number of walks.
    pub walks: [u64; 6],
    pub added: u64,
    pub replaced: u64,
    pub emptied: [u64; 3],
    /// Traps delivered, by code and mode.
    pub traps: [[u64; 2]; 10],
    /// Ends of accepted runs, by stop reason.
    pub stops: [u64; 4],
    /// Answers of runs, and of loads.
    pub answers: [u64; 7],
    pub load_answers: [u64; 12],
    /// Stores of demand 3's kind, by storer.
    pub held_stores: [u64; 2],
    marks: Marks,
    pub causes: Causes,
    pub walked: Walked,
    pub floats: Floats,
}

impl Default for Coverage {
    fn default() -> Self {
        Coverage {
            runs: 0,
            loads: 0,
            steps: 0,
            opcodes: [[[[[0; 2]; 2]; 2]; 256]; 2],
            hits: [[0; 2]; 3],
            walks_kept: [[0; 2]; 3],
            walks_faulted: [[0; 2]; 3],
            walks: [0; 6],
            added: 0,
            replaced: 0,
            emptied: [0; 3],
            traps: [[0; 2]; 10],
            stops: [0; 4],
            answers: [0; 7],
            load_answers: [0; 12],
            held_stores: [0; 2],
            marks: Marks::default(),
            causes: Causes::default(),
            walked: Walked::default(),
            floats: Floats::default(),
        }
    }
}

fn sum(mine: &mut [u64], theirs: &[u64]) {
    mine.iter_mut().zip(theirs).for_each(|(count, more)| *count += more);
}

const ACCESSES: [&str; 3] = ["fetch", "read", "write"];
const MODES: [&str; 2] = ["kernel", "user"];
const STOPS: [&str; 4] = ["running", "halted", "trap masked", "no frame"];
const STORERS: [&str; 2] = ["instructions", "frames"];
const EMPTIERS: [&str; 3] = ["64 held", "PDIR", "SPAG"];

/// Counting.
impl Coverage {
    pub fn hit(&mut self, access: Access, user: bool) {
        self.hits[access as usize][usize::from(user)] += 1;
    }

    pub fn walk(&mut self, access: Access, user: bool, kept: bool) {
        let counts = if kept { &mut self.walks_kept } else { &mut self.walks_faulted };
        counts[access as usize][usize::from(user)] += 1;
    }

    pub fn trap(&mut self, trap: Trap, user: bool) {
        self.traps[trap as usize][usize::from(user)] += 1;
    }

    /// An instruction, from the registers it was fetched with.
    pub fn executed(&mut self, code: u8, regs: &Registers, faulted: bool) {
        let [mode, paging, end] = [regs.user, regs.paging, faulted].map(usize::from);
        self.opcodes[usize::from(regs.mode)][usize::from(code)][mode][paging][end] += 1;
    }

    /// A step, by the registers before and after it.
    pub fn step(&mut self, before: &Registers, after: &Registers, walks: &Walks) {
        self.marks.step(before, after);
        self.causes.step(before, after);
        self.walks[walks.in_step as usize] += 1;
        self.walked.step(walks, after.stop);
    }

    pub fn end(&mut self, answer: u32, steps: u64, stop: Stop) {
        self.runs += 1;
        self.steps += steps;
        self.answers[answer as usize] += 1;
        if answer == 0 {
            self.stops[stop as usize] += 1;
        }
    }

    pub fn load(&mut self, answer: u32) {
        self.loads += 1;
        self.load_answers[answer as usize] += 1;
    }

    pub fn add(&mut self, other: &Coverage) {
        self.runs += other.runs;
        self.loads += other.loads;
        self.steps += other.steps;
        self.added += other.added;
        self.replaced += other.replaced;
        let (mine, theirs) = (self.opcodes.as_flattened_mut(), other.opcodes.as_flattened());
        let (mine, theirs) = (mine.as_flattened_mut(), theirs.as_flattened());
        sum(mine.as_flattened_mut().as_flattened_mut(), theirs.as_flattened().as_flattened());
        sum(self.hits.as_flattened_mut(), other.hits.as_flattened());
        sum(self.walks_kept.as_flattened_mut(), other.walks_kept.as_flattened());
        sum(self.walks_faulted.as_flattened_mut(), other.walks_faulted.as_flattened());
        sum(&mut self.walks, &other.walks);
        sum(&mut self.emptied, &other.emptied);
        sum(self.traps.as_flattened_mut(), other.traps.as_flattened());
        sum(&mut self.stops, &other.stops);
        sum(&mut self.answers, &other.answers);
        sum(&mut self.load_answers, &other.load_answers);
        sum(&mut self.held_stores, &other.held_stores);
        self.marks.add(&other.marks);
        self.causes.add(&other.causes);
        self.walked.add(&other.walked);
        self.floats.add(&other.floats);
    }
}

/// Telling.
impl Coverage {
    /// The kinds that must be reached, those in bulk too if asked for, and were
    /// not. Answer 3 can't come from an empty buffer, so that answers of runs
    /// are asked for by number.
    pub fn missing(&self, due_from: Due, answers: &[usize]) -> Vec<String> {
        let mut missing = Vec::new();
        self.each(|name, count, due| {
            if count == 0 && due >= due_from {
                missing.push(name.to_string());
            }
        });
        let unanswered = answers.iter().filter(|answer| self.answers[**answer] == 0);
        missing.extend(unanswered.map(|answer| format!("answer {answer} of a run")));
        missing
    }

    /// How many kinds that must be reached were not.
    pub fn missing_count(&self) -> usize {
        let mut missing = 0;
        self.each(|_, count, due| missing += usize::from(count == 0 && due == Due::Always));
        missing
    }

    /// All counts above zero, one a line.
    pub fn report(&self) -> String {
        let mut text = String::new();
        self.each(|name, count, _| {
            if count > 0 {
                text += &format!("{count:>12}  {name}\n");
            }
        });
        text
    }

    /// All counts, one a line, to be added up: count, due, name, tabs between.
    pub fn table(&self) -> String {
        let mut text = String::new();
        self.each(|name, count, due| text += &format!("{count}\t{}\t{name}\n", due as u32));
        text
    }

    /// Visits every count with its name and whether it must come.
    fn each(&self, mut visit: impl FnMut(Arguments, u64, Due)) {
        visit(format_args!("runs"), self.runs, Due::Always);
        visit(format_args!("loads"), self.loads, Due::InBulk);
        visit(format_args!("steps"), self.steps, Due::Always);
        for code in 0..=255 {
            self.each_end(code, &mut visit);
        }
        self.each_translation(&mut visit);
        for (code, counts) in self.traps.iter().enumerate() {
            let kernel = if code == Trap::Fpriv as usize { Due::Never } else { Due::Always };
            visit(format_args!("trap {code}"), counts[0], kernel);
            visit(format_args!("trap {}", code + 16), counts[1], Due::Always);
        }
        for (count, name) in self.stops.iter().zip(STOPS) {
            visit(format_args!("run ended, {name}"), *count, Due::Always);
        }
        for (answer, count) in self.answers.iter().enumerate() {
            visit(format_args!("run answered {answer}"), *count, Due::InBulk);
        }
        for (answer, count) in self.load_answers.iter().enumerate() {
            let due = if (2..7).contains(&answer) { Due::Never } else { Due::InBulk };
            visit(format_args!("load answered {answer}"), *count, due);
        }
        for (count, name) in self.held_stores.iter().zip(STORERS) {
            let name = format_args!("stores of demand 3's kind by {name}");
            visit(name, *count, Due::Always);
        }
        self.marks.visit(&mut visit);
        self.causes.visit(&mut visit);
        self.walked.visit(&mut visit);
        self.floats.visit(&mut visit);
    }

    /// Hits, walks and entries.
    fn each_translation(&self, visit: &mut impl FnMut(Arguments, u64, Due)) {
        for (at, access) in ACCESSES.iter().enumerate() {
            for (by, mode) in MODES.iter().enumerate() {
                visit(format_args!("hit, {mode} {access}"), self.hits[at][by], Due::Always);
                let (kept, faulted) = (self.walks_kept[at][by], self.walks_faulted[at][by]);
                visit(format_args!("walk kept, {mode} {access}"), kept, Due::Always);
                visit(format_args!("walk faulted, {mode} {access}"), faulted, Due::Always);
            }
        }
        for (walks, count) in self.walks.iter().enumerate() {
            visit(format_args!("steps with {walks} walks"), *count, Due::InBulk);
        }
        visit(format_args!("entry added"), self.added, Due::Always);
        visit(format_args!("entry replaced"), self.replaced, Due::Always);
        for (count, name) in self.emptied.iter().zip(EMPTIERS) {
            visit(format_args!("buffer emptied, {name}"), *count, Due::Always);
        }
    }
}
