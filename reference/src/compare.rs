//! The comparison of the two machines over a list of runs. Document 01, "The
//! table reader".

use crate::case::{RunInput, Runs};
use crate::coverage::Coverage;
use crate::machine::Machine;
use crate::mistake::Mistake;

/// How a comparison went.
#[derive(Clone, Debug, PartialEq, Eq)]
pub enum Verdict {
    /// Equal through all runs.
    Equal,
    /// Equal through the first step with a store of demand 3's kind.
    EqualToStore,
    Different(String),
}

/// What is asked of a comparison.
#[derive(Clone, Copy, Default)]
pub struct Question {
    /// Planted in the machine with the buffer alone.
    pub mistake: Option<Mistake>,
    /// Goes on past a store of demand 3's kind, where nothing is claimed.
    pub past_stores: bool,
}

/// The machine of the rules says where the comparison ends; the tested one is
/// the same, but for a planted mistake.
struct Machines {
    rules: Machine,
    tested: Machine,
    reader: Machine,
}

/// Runs the machines over a case that starts with an empty buffer.
pub fn compare(case: &Runs, question: Question, coverage: &mut Coverage) -> Verdict {
    assert_eq!(case.record.buffer.count, 0, "the comparison starts from an empty buffer");
    let start = |make: fn(_, _, &_) -> Machine| {
        make(case.memory.clone(), case.console.clone(), &case.record)
    };
    let rules = start(Machine::buffered);
    let tested = Machine { mistake: question.mistake, ..rules.clone() };
    let mut machines = Machines { rules, tested, reader: start(Machine::table_reader) };
    let mut verdict = Verdict::Equal;
    for run in &case.runs {
        verdict = machines.compare_run(run, question.past_stores);
        if verdict != Verdict::Equal {
            break;
        }
    }
    coverage.add(&machines.tested.coverage);
    verdict
}

impl Machines {
    /// Compares one run. If it has the first store of demand 3's kind, the
    /// answer is compared, and the rest as it stands after that step; if the
    /// run ends there, that is the whole run with its reported steps.
    fn compare_run(&mut self, run: &RunInput, past_stores: bool) -> Verdict {
        let answers = [&self.tested, &self.reader].map(|one| one.answer(&run.keys, run.budget));
        let first = self.rules.regs.count;
        let outcome = self.rules.run(&run.keys, run.budget);
        let store = self.rules.held_store.filter(|_| !past_stores);
        let budget = match store {
            Some(step) if step - first < outcome.steps => step - first,
            _ => run.budget,
        };
        // Walks are not compared.
        let outcomes = [&mut self.tested, &mut self.reader].map(|one| {
            let outcome = one.run(&run.keys, budget);
            (outcome.answer, outcome.steps)
        });
        if answers[0] != answers[1] {
            Verdict::Different(format!("answers {answers:?}"))
        } else if let Some(text) = difference(&self.tested, &self.reader) {
            Verdict::Different(text)
        } else if outcomes[0] != outcomes[1] {
            Verdict::Different(format!("{outcomes:?}"))
        } else if store.is_some() {
            Verdict::EqualToStore
        } else {
            Verdict::Equal
        }
    }
}

/// Registers, memory and console; the buffer is no part of the comparison.
fn difference(tested: &Machine, reader: &Machine) -> Option<String> {
    if tested.regs != reader.regs {
        return Some(format!("registers {:?} and {:?}", tested.regs, reader.regs));
    }
    if tested.memory != reader.memory {
        return Some("memory".to_string());
    }
    (tested.console != reader.console).then(|| "console".to_string())
}
