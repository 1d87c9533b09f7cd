//! What the tests of the directed cases, and those of every step of random runs,
//! share; not each uses all of it.
#![allow(dead_code)]

pub mod scene;

use reference::case::{Case, Runs};
use reference::directed::tables::ROWS;
use reference::directed::{all, Named};
use reference::machine::Machine;
use reference::run::Outcome;
use reference::types::{Entry, Registers};
use reference::words::get;
use std::sync::LazyLock;

static ALL: LazyLock<Vec<Named>> = LazyLock::new(all);

/// A machine after a case, with the outcome of each run.
pub struct After {
    pub machine: Machine,
    pub given: Runs,
    pub outcomes: Vec<Outcome>,
}

pub fn runs(name: &str) -> Runs {
    let found = ALL.iter().find(|case| case.0 == name);
    match &found.unwrap_or_else(|| panic!("no case {name}")).1 {
        Case::Runs(runs) => *runs.clone(),
        Case::Load(_) => panic!("{name} is a load"),
    }
}

/// The machine with the buffer after the first `runs` runs of a case.
pub fn after_runs(name: &str, count: usize) -> After {
    let given = runs(name);
    let mut machine = Machine::buffered(given.memory.clone(), given.console.clone(), &given.record);
    let list = given.runs[..count].iter();
    let outcomes = list.map(|run| machine.run(&run.keys, run.budget)).collect();
    After { machine, given, outcomes }
}

/// After all runs of a case.
pub fn after(name: &str) -> After {
    after_runs(name, runs(name).runs.len())
}

impl After {
    pub fn regs(&self) -> &Registers {
        &self.machine.regs
    }

    pub fn word(&self, at: u32) -> u32 {
        get(&self.machine.memory, at, 4)
    }

    /// The results that a table has left in its rows.
    pub fn rows(&self, count: usize) -> Vec<u32> {
        (0..count as u32).map(|row| self.word(ROWS + 16 * row)).collect()
    }

    pub fn entries(&self) -> Vec<(u32, u32, bool, bool)> {
        let tuple = |entry: &Entry| (entry.page, entry.frame, entry.user, entry.write);
        self.machine.buffer.as_ref().unwrap().entries().iter().map(tuple).collect()
    }

    pub fn memory_is_unchanged(&self) -> bool {
        self.machine.memory == self.given.memory
    }

    /// A frame was stored under `top` and the handler entered.
    pub fn delivered(&self, top: u32, code: u32, pc: u32) {
        assert_eq!(self.word(top - 16), code, "code");
        assert_eq!(self.word(top - 8), pc, "stored pc");
        assert_eq!(self.regs().sp, top - 16);
        assert_eq!(self.regs().pc, self.given.record.regs.ivec);
        assert!(!self.regs().user && !self.regs().iena);
    }
}
