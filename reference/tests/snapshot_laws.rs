//! Saved machines on random ones: what is saved comes back, what is read saves
//! to the same bytes and runs on as if it had never been in a file.

use reference::calls::Save;
use reference::case::Case;
use reference::line::{line, line_by, resumed, saved, Setup};
use reference::line_files;
use reference::machine::Machine;
use reference::random::executables::random_file;
use reference::random::machines::{random_restore, random_save};
use reference::random::rng::Rng;
use reference::random::scene::{case, Purpose};
use reference::snapshot::read::read;
use reference::snapshot::save::save;
use reference::types::{Entry, Record, CAPACITY};
use std::io::Write;
use std::process::{Command, Stdio};

const COUNT: u64 = 6000;

/// Random machines that can be saved, each with its file, and how many can't.
fn saved_machines() -> (Vec<(Save, Vec<u8>)>, usize) {
    let rng = &mut Rng::new(5);
    let (mut list, mut refused) = (Vec::new(), 0);
    for number in 0..COUNT {
        let machine = random_save(rng, number);
        let mut file = vec![machine.fill; machine.file_length];
        let before = file.clone();
        match save(&machine.record, &machine.memory, &machine.console, &mut file) {
            (0, length) => {
                let length = length as usize;
                assert_eq!(file[length..], before[length..]);
                file.truncate(length);
                list.push((machine, file));
            }
            (_, length) => {
                assert!(length == 0 && file == before);
                refused += 1;
            }
        }
    }
    (list, refused)
}

/// The record that must come back: keys taken 0, slots past the count zero.
fn read_back(record: &Record) -> Record {
    let mut record = record.clone();
    record.regs.keys = 0;
    let count = record.buffer.count as usize;
    record.buffer.slots[count..].fill(Entry::default());
    record
}

#[test]
fn what_is_saved_comes_back() {
    let (list, refused) = saved_machines();
    assert!(list.len() > 2000 && refused > 1000, "{} and {refused}", list.len());
    let full = list.iter().filter(|(machine, _)| machine.record.buffer.count as usize == CAPACITY);
    assert!(full.count() > 20);
    for (machine, file) in &list {
        let written = machine.record.regs.written as usize;
        let mut memory = vec![0x5a; machine.memory.len()];
        let mut console = vec![0x5a; machine.console.len() + 3];
        let (answer, record) = read(file, &mut memory, &mut console);
        assert_eq!((answer, &record), (0, &read_back(&machine.record)));
        assert_eq!(memory, machine.memory);
        assert_eq!(console[..written], machine.console[..written]);
        assert!(console[written..].iter().all(|byte| *byte == 0x5a));
    }
}

#[test]
fn what_is_read_saves_to_the_same_bytes_and_no_run_refuses_it() {
    let rng = &mut Rng::new(6);
    let mut accepted = 0;
    for number in 0..COUNT {
        let restore = random_restore(rng, number);
        let (mut memory, mut console) =
            (vec![restore.fill; restore.memory_length], vec![restore.fill; restore.console_length]);
        let before = (memory.clone(), console.clone());
        let (answer, record) = read(&restore.file, &mut memory, &mut console);
        if answer != 0 {
            assert_eq!((memory, console), before);
            assert_eq!(record, Record::default());
            continue;
        }
        accepted += 1;
        let mut again = vec![0xa5; restore.file.len() + 2];
        let length = restore.file.len();
        assert_eq!(save(&record, &memory, &console, &mut again), (0, length as u64));
        assert_eq!(again[..length], restore.file);
        assert_eq!(again[length..], [0xa5; 2]);
        let machine = Machine::buffered(memory, console, &record);
        assert_eq!(machine.answer(&[], 1), 0);
    }
    assert!(accepted > 2000 && accepted < COUNT - 1000, "{accepted}");
}

/// A run without keys, all at once or with the machine carried over in a file
/// somewhere within.
#[test]
fn a_carried_machine_goes_on_as_the_whole_run_does() {
    let rng = &mut Rng::new(7);
    let (mut carried, mut with_entries) = (0, 0);
    for number in 0..3000 {
        let Case::Runs(mut runs) = case(8, number, Purpose::Any) else { continue };
        runs.record.regs.keys = 0;
        let mut whole = Machine::buffered(runs.memory.clone(), runs.console.clone(), &runs.record);
        let mut first = whole.clone();
        if whole.run(&[], 200).answer != 0 {
            continue;
        }
        let cut = u64::from(rng.below(201));
        first.run(&[], cut);
        let mut file = vec![0; 8192 + first.memory.len()];
        let (answer, length) = save(&first.record(), &first.memory, &first.console, &mut file);
        // A step count of 2^63 ends all but the run that comes to it.
        if answer == 2 && first.regs.count >= 1 << 63 {
            continue;
        }
        assert_eq!(answer, 0);
        // Later console bytes are the lent console's.
        let (mut memory, mut console) = (vec![9; first.memory.len()], first.console.clone());
        let (answer, record) = read(&file[..length as usize], &mut memory, &mut console);
        assert_eq!(answer, 0);
        let mut second = Machine::buffered(memory, console, &record);
        assert_eq!(second.run(&[], 200 - cut).answer, 0);
        assert_eq!(read_back(&second.record()).regs, whole.regs);
        let entries = |machine: &Machine| {
            let tuple = |entry: &Entry| (entry.page, entry.frame, entry.user, entry.write);
            machine.buffer.as_ref().unwrap().entries().iter().map(tuple).collect::<Vec<_>>()
        };
        assert_eq!(entries(&second), entries(&whole));
        assert!(second.memory == whole.memory && second.console == whole.console);
        carried += 1;
        with_entries += usize::from(record.buffer.count > 0);
    }
    assert!(carried > 2000 && with_entries > 500, "{carried}, {with_entries}");
}

/// The examples and random executables: what goes on after 100,000 steps ends
/// as 200,000 at once.
#[test]
fn saved_and_resumed_is_the_longer_run() {
    let twice = Setup { budget: 200_000, ..Setup::default() };
    let files = line_files::files().into_iter().map(|(_, file)| file);
    let files = files.chain((0..200).map(|number| random_file(9, number)));
    let (mut longer, mut refused) = (0, 0);
    for file in files {
        let expected = line_by(&twice, &file);
        match saved(&file) {
            Ok(machine) => {
                assert_eq!(resumed(&machine), expected);
                longer += usize::from(line(&file) != expected);
            }
            Err(answer) => {
                assert_eq!(expected, format!("refused {answer}"));
                refused += 1;
            }
        }
    }
    assert!(longer > 20 && refused > 30, "{longer}, {refused}");
}

/// What a command writes to standard output and to standard error.
fn printed(words: &[&str], input: &[u8]) -> (Vec<u8>, Vec<u8>) {
    let mut command = Command::new(env!("CARGO_BIN_EXE_reference"));
    command.args(words).stdin(Stdio::piped()).stdout(Stdio::piped()).stderr(Stdio::piped());
    let mut child = command.spawn().unwrap();
    let mut stdin = child.stdin.take().unwrap();
    stdin.write_all(input).unwrap();
    drop(stdin);
    let output = child.wait_with_output().unwrap();
    assert!(output.status.success());
    (output.stdout, output.stderr)
}

#[test]
fn the_commands_save_and_resume() {
    let endless = include_bytes!("../../examples/endless.v9");
    let (machine, error) = printed(&["save"], endless);
    assert_eq!((machine.len(), error.len()), (140 + 32_768, 0));
    let (line, _) = printed(&["resume"], &machine);
    assert_eq!(line, b"stop 0 steps 200000 a 0 b 0 c 0 sp 32768 pc 0\n");
    assert_eq!(printed(&["line", "--budget", "200000"], endless).0, line);
    let refused = include_bytes!("../../examples/refused.v9");
    assert_eq!(printed(&["save"], refused), (Vec::new(), b"refused 11\n".to_vec()));
    assert_eq!(printed(&["resume"], b"").0, b"refused 13\n");
    assert_eq!(printed(&["resume"], &machine[..32_887]).0, b"refused 15\n");
}
