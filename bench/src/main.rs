//! `bench VECTORS PLAIN`: runs the emulator's program and the plain one on the workloads, in turn, fails where their results differ, and prints ns and
//! instructions a step with their ratios.
//! `bench --instructions VECTORS`: of the emulator's program alone, a workload a line: its name, instructions a step, the result.

use bench::measure::{held_after_whole_runs, instructions, lines, nanoseconds, Program};
use bench::measure::{COUNTED, LONG, RUNS, SHORT};
use bench::workload::{all, growths, Workload};
use std::error::Error;

const ROUNDS: usize = 7;

struct Programs {
    emulator: Program,
    plain: Program,
}

/// What one workload costs a step, the emulator first.
struct Cost {
    nanoseconds: [f64; 2],
    instructions: [f64; 2],
}

fn main() -> Result<(), Box<dyn Error>> {
    let words: Vec<String> = std::env::args().skip(1).collect();
    match &words[..] {
        [option, vectors] if option == "--instructions" => {
            print_instructions(&Program(vectors.clone()))
        }
        [vectors, plain] => {
            let [emulator, plain] = [vectors, plain].map(|path| Program(path.clone()));
            compare(&Programs { emulator, plain })
        }
        _ => Err("usage: bench VECTORS PLAIN, or bench --instructions VECTORS".into()),
    }
}

fn compare(programs: &Programs) -> Result<(), Box<dyn Error>> {
    println!("machine: {}", machine()?);
    print_how();
    println!("{:<34}{:>25}{:>26}", "", "ns a step", "instructions a step");
    print!("{:<34}", "workload");
    println!(
        "{0:>10}{1:>8}{2:>7}  {0:>10}{1:>8}{2:>7}{3:>9}",
        "emulator", "plain", "ratio", "entries"
    );
    let mut missed = Vec::new();
    for work in all() {
        for cost in measured(programs, &[&work])? {
            missed.extend(misses(&work, &cost));
        }
    }
    for growth in growths() {
        let costs = measured(programs, &[&growth.few, &growth.many])?;
        println!(
            "    growth with {}, of the emulator: time {:.2}, instructions {:.3}",
            growth.what,
            costs[1].nanoseconds[0] / costs[0].nanoseconds[0],
            costs[1].instructions[0] / costs[0].instructions[0]
        );
    }
    println!("all results are equal");
    println!("more than 0.8 of the time (paged 0.6) or 0.6 of the instructions, calls of budget 1 apart: {}", list(&missed));
    Ok(())
}

fn print_how() {
    println!("buffers: each measurement is a fresh process with a fresh machine: memory is zero but for the program and the page tables, the page buffer is");
    println!("    empty. The runs of one process are handed on, with the page buffer as the run before left it. The processor's caches are not cleared.");
    println!("ns a step: time on the processor, the least of {ROUNDS} rounds, both programs in turn; {RUNS} runs of {LONG} steps less {RUNS} runs of {SHORT}.");
    println!("instructions a step: callgrind, a run of {COUNTED} steps less a run of {SHORT}.");
    println!("calls of budget 1: {LONG} of them; what a call itself costs is in it. The emulator's single_step rewrites the caller's record: it takes it by");
    println!("    value and back, tries document 01's refusals and unpacks and packs the page buffer. The plain interpreter tries the refusals; its record stays.");
}

/// Compares the results of workloads, measures them in turn, and prints a line for each.
fn measured(programs: &Programs, works: &[&Workload]) -> Result<Vec<Cost>, Box<dyn Error>> {
    let held =
        works.iter().map(|work| held_if_equal(programs, work)).collect::<Result<Vec<_>, _>>()?;
    let mut least = vec![[f64::INFINITY; 2]; works.len()];
    for _ in 0..ROUNDS {
        for (work, least) in works.iter().zip(&mut least) {
            least[0] = least[0].min(nanoseconds(&programs.emulator, work)?);
            least[1] = least[1].min(nanoseconds(&programs.plain, work)?);
        }
    }
    let mut costs = Vec::new();
    for ((work, held), nanoseconds) in works.iter().zip(held).zip(least) {
        let counts =
            [instructions(&programs.emulator, work)?.0, instructions(&programs.plain, work)?.0];
        print!("{:<34}", work.name);
        for [emulator, plain] in [nanoseconds, counts] {
            print!("{emulator:>10.2}{plain:>8.2}{:>7.2}  ", emulator / plain);
        }
        println!("{held:>7}");
        costs.push(Cost { nanoseconds, instructions: counts });
    }
    Ok(costs)
}

/// The entries held after a workload; fails where the two programs' results differ or a run is not made whole.
fn held_if_equal(programs: &Programs, work: &Workload) -> Result<u64, Box<dyn Error>> {
    let result = lines(&programs.emulator, work)?;
    if result != lines(&programs.plain, work)? {
        return Err(format!("{}: the results differ", work.name).into());
    }
    held_after_whole_runs(&result)
        .ok_or_else(|| format!("{}: a run was refused, or stopped early", work.name).into())
}

/// Which targets a workload misses.
fn misses(work: &Workload, cost: &Cost) -> Vec<String> {
    let ratio = |[emulator, plain]: [f64; 2]| emulator / plain;
    let time = if work.paged { 0.6 } else { 0.8 };
    let found = [
        (ratio(cost.nanoseconds) > time, "time"),
        (ratio(cost.instructions) > 0.6, "instructions"),
    ];
    let found = found.iter().filter(|(missed, _)| *missed && !work.by_step);
    found.map(|(_, what)| format!("{} ({what})", work.name)).collect()
}

fn list(missed: &[String]) -> String {
    if missed.is_empty() {
        "none".to_string()
    } else {
        missed.join("; ")
    }
}

fn machine() -> Result<String, Box<dyn Error>> {
    let text = std::fs::read_to_string("/proc/cpuinfo")?;
    let model = text.lines().find_map(|line| line.strip_prefix("model name")?.split_once(": "));
    let cores = std::thread::available_parallelism()?;
    Ok(format!("{}, {cores} cores", model.map_or("unknown processor", |(_, name)| name)))
}

fn print_instructions(emulator: &Program) -> Result<(), Box<dyn Error>> {
    let growths = growths().into_iter().flat_map(|growth| [growth.few, growth.many]);
    for work in all().into_iter().chain(growths) {
        let (count, line) = instructions(emulator, &work)?;
        println!("{}\t{count:.3}\t{line}", work.name);
    }
    Ok(())
}
