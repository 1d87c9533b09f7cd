//! What must come out of a case: one line of decimal numbers a run or load.
//! FORMAT.md names the fields.

use crate::case::decode::cases;
use crate::case::numbers::numbers;
use crate::case::{Case, Load, Runs, ENTRIES, SINGLE_STEP};
use crate::coverage::Coverage;
use crate::digest::digest;
use crate::load::load_with;
use crate::machine::Machine;
use crate::mistake::Mistake;
use crate::run::Outcome;
use crate::types::Record;
use std::io::{self, Write};

/// What stands after a run or load: its outcome, the numbers that a line has of
/// its record, and what the digests are over.
#[derive(PartialEq, Eq)]
pub struct Shown {
    outcome: Outcome,
    record: Vec<u64>,
    memory: Vec<u8>,
    console: Vec<u8>,
}

/// What each run of a case, or its load, shows, and what was covered.
pub struct Played {
    pub shown: Vec<Shown>,
    pub coverage: Coverage,
}

/// Plays a case, with a planted mistake if one is named. The entries show the
/// same, but for the walks that `single_step` doesn't report, so it is played
/// once.
pub fn play(case: &Case, mistake: Option<Mistake>) -> Played {
    match case {
        Case::Runs(runs) => play_runs(runs, mistake),
        Case::Load(load) => play_load(load, mistake),
    }
}

fn play_runs(case: &Runs, mistake: Option<Mistake>) -> Played {
    let mut machine = Machine::buffered(case.memory.clone(), case.console.clone(), &case.record);
    machine.mistake = mistake;
    let mut shown = Vec::new();
    for run in &case.runs {
        let outcome = machine.run(&run.keys, run.budget);
        shown.push(show(outcome, &machine.record(), &machine.memory, &machine.console));
    }
    Played { shown, coverage: machine.coverage }
}

fn play_load(case: &Load, mistake: Option<Mistake>) -> Played {
    let mut memory = vec![case.fill; case.memory_length];
    let (answer, record) = load_with(&mut memory, &case.file, mistake);
    let mut coverage = Coverage::default();
    coverage.load(answer);
    let outcome = Outcome { answer, steps: 0, walks: 0 };
    Played { shown: vec![show(outcome, &record, &memory, &[])], coverage }
}

fn show(outcome: Outcome, record: &Record, memory: &[u8], console: &[u8]) -> Shown {
    let (memory, console) = (memory.to_vec(), console.to_vec());
    Shown { outcome, record: shown_record(record), memory, console }
}

/// Items 5 to 7 of a line: what it has of a record.
pub fn shown_record(record: &Record) -> Vec<u64> {
    let (regs, buffer) = (&record.regs, &record.buffer);
    let numbers = numbers(regs);
    let mut list = vec![regs.keys, regs.written, numbers.len() as u64];
    list.extend(numbers);
    list.push(u64::from(buffer.count));
    for entry in buffer.entries() {
        list.extend([u64::from(entry.page), u64::from(entry.frame)]);
        list.extend([u64::from(entry.user), u64::from(entry.write)]);
    }
    list
}

impl Shown {
    /// The line with the walks reported, and with none.
    fn line(&self, number: usize, nth: usize) -> [String; 2] {
        let Outcome { answer, steps, walks } = self.outcome;
        let mut list = self.record.clone();
        list.extend(digest(&self.memory));
        list.extend(digest(&self.console));
        let words: Vec<String> = list.iter().map(u64::to_string).collect();
        let rest = words.join(" ");
        [walks, 0].map(|walks| format!("{number} {nth} {answer} {steps} {walks} {rest}"))
    }
}

/// The lines of case `number`: those of its runs, once for each of its entries.
pub fn lines(number: usize, case: &Case, played: &Played) -> Vec<String> {
    let entries = match case {
        Case::Runs(runs) => runs.entries,
        Case::Load(_) => 1,
    };
    let once: Vec<[String; 2]> =
        played.shown.iter().enumerate().map(|(nth, shown)| shown.line(number, nth)).collect();
    let by_entry = |entry: u32| {
        let unreported = usize::from(entry == SINGLE_STEP);
        once.iter().map(move |lines| lines[unreported].clone())
    };
    ENTRIES.into_iter().filter(|entry| entries & entry != 0).flat_map(by_entry).collect()
}

/// Writes all that must come out of a stream, and gives what was covered.
pub fn expect(stream: &[u8], output: &mut impl Write) -> io::Result<Coverage> {
    let mut coverage = Coverage::default();
    let mut number = 0;
    for case in cases(stream) {
        let case = match case {
            Ok(case) => case,
            Err(broken) => {
                writeln!(output, "broken {number} {broken}")?;
                return Ok(coverage);
            }
        };
        let played = play(&case, None);
        for line in lines(number, &case, &played) {
            writeln!(output, "{line}")?;
        }
        coverage.add(&played.coverage);
        number += 1;
    }
    writeln!(output, "end {number}")?;
    Ok(coverage)
}
