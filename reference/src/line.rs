//! The run program: an executable in, one line out. The programs that carry a
//! machine in a file: the same machine saved where its budget ends, and a saved
//! one run on.

use crate::load::load;
use crate::machine::Machine;
use crate::run::Outcome;
use crate::snapshot::layout::saved_length;
use crate::snapshot::read::read;
use crate::snapshot::save::save;
use crate::types::Key;

pub const MEMORY: usize = 32_768;
pub const CONSOLE: usize = 4_096;
pub const BUDGET: u64 = 100_000;

/// What the run program lends and allows; the default is document 01's.
#[derive(Clone)]
pub struct Setup {
    pub memory: usize,
    pub console: usize,
    pub budget: u64,
    pub keys: Vec<Key>,
}

impl Default for Setup {
    fn default() -> Setup {
        Setup { memory: MEMORY, console: CONSOLE, budget: BUDGET, keys: Vec::new() }
    }
}

/// The line for an executable, without its newline.
pub fn line(file: &[u8]) -> String {
    line_by(&Setup::default(), file)
}

/// `line`, by another machine.
pub fn line_by(setup: &Setup, file: &[u8]) -> String {
    match ran(setup, file) {
        Ok((machine, outcome)) => shown(&machine, outcome.steps),
        Err(answer) => refused(answer),
    }
}

/// The machine of an executable after its run, or the answer of its load.
fn ran(setup: &Setup, file: &[u8]) -> Result<(Machine, Outcome), u32> {
    let mut memory = vec![0; setup.memory];
    let (answer, record) = load(&mut memory, file);
    if answer != 0 {
        return Err(answer);
    }
    let mut machine = Machine::buffered(memory, vec![0; setup.console], &record);
    let outcome = machine.run(&setup.keys, setup.budget);
    Ok((machine, outcome))
}

fn shown(machine: &Machine, steps: u64) -> String {
    let regs = &machine.regs;
    format!(
        "stop {} steps {steps} a {} b {} c {} sp {} pc {}",
        regs.stop as u32, regs.a, regs.b, regs.c, regs.sp, regs.pc
    )
}

/// The line of what was refused.
pub fn refused(answer: u32) -> String {
    format!("refused {answer}")
}

/// The saved machine of an executable after the run program's run, or the
/// answer of its load. Document 02, item 5.
pub fn saved(file: &[u8]) -> Result<Vec<u8>, u32> {
    let (machine, _) = ran(&Setup::default(), file)?;
    let record = machine.record();
    let mut saved = vec![0; saved_length(&record, MEMORY)];
    let (answer, length) = save(&record, &machine.memory, &machine.console, &mut saved);
    assert_eq!((answer, length), (0, saved.len() as u64), "what a run leaves can be saved");
    Ok(saved)
}

/// The line for a saved machine that runs on with the run program's budget. Its
/// steps are those since the load: the step count.
pub fn resumed(file: &[u8]) -> String {
    let (mut memory, mut console) = (vec![0; MEMORY], vec![0; CONSOLE]);
    let (answer, record) = read(file, &mut memory, &mut console);
    if answer != 0 {
        return refused(answer);
    }
    let mut machine = Machine::buffered(memory, console, &record);
    let outcome = machine.run(&[], BUDGET);
    assert_eq!(outcome.answer, 0, "what is read can run");
    shown(&machine, machine.regs.count)
}
