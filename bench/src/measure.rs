//! Running a program on a case: its output, its time, and its count of instructions.

use crate::case::encode;
use crate::workload::{case, Workload};
use std::error::Error;
use std::fs;
use std::io::{Read, Write};
use std::process::{Command, Stdio};

/// Budget of a run, at most what document 01 accepts, and of a run that costs next to nothing and gives the same number of lines.
pub const LONG: u64 = 1_000_000;
pub const SHORT: u64 = 1_000;
/// Runs of a timed process; workloads in calls of budget 1 have one.
pub const RUNS: usize = 20;
/// Budget of the run whose instructions are counted.
pub const COUNTED: u64 = 400_000;

/// A program that reads cases and prints their lines.
pub struct Program(pub String);

fn runs(work: &Workload) -> usize {
    if work.by_step {
        1
    } else {
        RUNS
    }
}

/// The lines of the long runs.
pub fn lines(program: &Program, work: &Workload) -> Result<String, Box<dyn Error>> {
    let bytes = encode(&case(work, runs(work), LONG));
    Ok(String::from_utf8_lossy(&run(Command::new(&program.0), &bytes)?.output).into_owned())
}

/// Whether every run was accepted and made all its steps, and the entries held after the last.
pub fn held_after_whole_runs(lines: &str) -> Option<u64> {
    let mut held = None;
    for line in lines.strip_suffix("end 1\n")?.lines() {
        let numbers: Vec<u64> =
            line.split(' ').map(|word| word.parse().ok()).collect::<Option<_>>()?;
        let [_, _, answer, steps, _, _, _, count, ..] = numbers[..] else { return None };
        if answer != 0 || steps != LONG {
            return None;
        }
        held = numbers.get(8 + count as usize).copied();
    }
    held
}

/// Nanoseconds on the processor a step: the long runs less the short ones, each in a process of its own.
pub fn nanoseconds(program: &Program, work: &Workload) -> Result<f64, Box<dyn Error>> {
    let [less, more] = [SHORT, LONG]
        .map(|budget| run(Command::new(&program.0), &encode(&case(work, runs(work), budget))));
    let steps = (LONG - SHORT) * runs(work) as u64;
    Ok((more?.nanoseconds - less?.nanoseconds) / steps as f64)
}

/// Instructions a step: one long run less one short run, each in a process of its own, counted by callgrind; and the long run's line.
pub fn instructions(program: &Program, work: &Workload) -> Result<(f64, String), Box<dyn Error>> {
    let [less, more] =
        [SHORT, COUNTED].map(|budget| counted(program, &encode(&case(work, 1, budget))));
    let ((less, _), (more, lines)) = (less?, more?);
    let line = lines.lines().next().ok_or("no line")?.to_string();
    Ok(((more - less) / (COUNTED - SHORT) as f64, line))
}

fn counted(program: &Program, input: &[u8]) -> Result<(f64, String), Box<dyn Error>> {
    let file = std::env::temp_dir().join(format!("bench-{}.callgrind", std::process::id()));
    let mut command = Command::new("valgrind");
    command.arg("--tool=callgrind").arg(format!("--callgrind-out-file={}", file.display()));
    command.arg(&program.0).stderr(Stdio::null());
    let line = String::from_utf8_lossy(&run(command, input)?.output).into_owned();
    let text = fs::read_to_string(&file)?;
    fs::remove_file(file)?;
    let total = text.lines().find_map(|line| line.strip_prefix("totals: "));
    Ok((total.ok_or("callgrind gave no total")?.trim().parse()?, line))
}

/// What a process wrote, and its time on the processor.
struct Ended {
    output: Vec<u8>,
    nanoseconds: f64,
}

/// Runs a command, which must end well.
fn run(mut command: Command, input: &[u8]) -> Result<Ended, Box<dyn Error>> {
    let mut child = command.stdin(Stdio::piped()).stdout(Stdio::piped()).spawn()?;
    child.stdin.take().ok_or("no standard input")?.write_all(input)?;
    let mut output = Vec::new();
    child.stdout.take().ok_or("no standard output")?.read_to_end(&mut output)?;
    // the process has ended, and has its entry in /proc until it is waited for
    let times = fs::read_to_string(format!("/proc/{}/schedstat", child.id()))?;
    let nanoseconds = times.split(' ').next().ok_or("no time")?.parse()?;
    let status = child.wait()?;
    if !status.success() {
        return Err(format!("{command:?} ended with {status}").into());
    }
    Ok(Ended { output, nanoseconds })
}
