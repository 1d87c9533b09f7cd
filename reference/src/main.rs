//! The commands; `README.md` describes them.

mod call_commands;

use reference::broken::{streams, Stream};
use reference::calls::broken::streams as broken_calls;
use reference::case::decode::read_all;
use reference::case::encode::encode;
use reference::case::numbers::NAMES;
use reference::case::Case;
use reference::compare::{compare, Question, Verdict};
use reference::coverage::{Coverage, Due};
use reference::expect::{expect, play};
use reference::families::families;
use reference::line::{line, line_by, Setup, BUDGET};
use reference::line_files;
use reference::mistake::Mistake;
use reference::mutants::Judge;
use reference::random::executables::random_file;
use reference::random::scene::{case, Purpose};
use reference::stored::stored_set;
use reference::stream::Broken;
use reference::types::MAX_BUDGET;
use std::fs;
use std::io::{self, BufWriter, Read, Write};
use std::ops::Range;
use std::process::ExitCode;

const USAGE: &str = "usage:
  reference write-cases [--seed S] [--first F] [--count N]
                                                random cases, in FORMAT.md's bytes
  reference expect [--coverage FILE] < cases    what must come out of each case
  reference fields                              the names of a line's fields
  reference coverage < cases                    what the cases cover, counted
  reference compare [--seed S] [--first F] [--count N]
                                                both machines over random runs
  reference write-stored                        the stored set, in the same bytes
  reference mutants < cases                     which cases tell planted mistakes apart
  reference line [--budget B] < executable      the run program's line
  reference save < executable                   its machine after the run, saved
  reference resume < file                       the line of a saved machine that runs on
  reference random-file [--seed S] [--number N] random executable N of a seed
  reference random-files [--seed S] [--first F] [--count N]
                                                many, each after its length (u32)
  reference write-files                         executables, each with its length in front
  reference write-broken [--number N]           broken streams, each with its length in front;
                                                or one of them as it is
  reference lines < files                       the run program's line of each
  reference list < executable                   its listing
  reference unlist < lines                      the address and word of each listed line
  reference write-calls                         the stored calls, in CALLS.md's bytes
  reference calls < calls                       what must come out of each call
  reference random-calls [--seed S] [--first F] [--count N]
                                                random calls, in the same bytes
  reference call-mutants < calls                which calls tell planted mistakes apart
  reference write-broken-calls [--number N]     as write-broken, of calls";

type Done = Result<(), String>;

fn main() -> ExitCode {
    let words: Vec<String> = std::env::args().skip(1).collect();
    match command(&words) {
        Ok(()) => ExitCode::SUCCESS,
        Err(text) => {
            eprintln!("{text}");
            ExitCode::FAILURE
        }
    }
}

fn command(words: &[String]) -> Done {
    let Some((name, options)) = words.split_first() else { return Err(USAGE.to_string()) };
    let seed = option(options, "--seed", 1)?;
    let first = option(options, "--first", 0)?;
    let count = option(options, "--count", 1000)?;
    let numbers = first..first.saturating_add(count);
    match name.as_str() {
        "write-cases" => write_all(numbers.map(|number| case(seed, number, Purpose::Any))),
        "expect" => print_expected(options),
        "fields" => print_fields(),
        "coverage" => print_coverage(),
        "compare" => print_comparison(seed, numbers),
        "write-stored" => write_all(stored_set().into_iter()),
        "mutants" => print_mutants(),
        "line" => print_line(option(options, "--budget", BUDGET)?),
        "save" => call_commands::save(),
        "resume" => call_commands::resume(),
        "random-file" => print_file(seed, option(options, "--number", 0)?),
        "random-files" => print_files(seed, numbers),
        "write-files" => write_files(),
        "write-broken" => write_streams(&streams(), option(options, "--number", u64::MAX)?),
        "lines" => print_lines(),
        "list" => call_commands::list(),
        "unlist" => call_commands::unlist(),
        "write-calls" => call_commands::write_stored(),
        "calls" => call_commands::print_expected(),
        "random-calls" => call_commands::write_random(seed, numbers),
        "call-mutants" => call_commands::print_mutants(),
        "write-broken-calls" => {
            write_streams(&broken_calls(), option(options, "--number", u64::MAX)?)
        }
        _ => Err(USAGE.to_string()),
    }
}

fn option(words: &[String], name: &str, default: u64) -> Result<u64, String> {
    let Some(at) = words.iter().position(|word| word == name) else { return Ok(default) };
    let value = words.get(at + 1).and_then(|word| word.parse().ok());
    value.ok_or_else(|| format!("{name} takes a number"))
}

fn text(error: io::Error) -> String {
    error.to_string()
}

fn write_all(cases: impl Iterator<Item = Case>) -> Done {
    let mut output = BufWriter::new(io::stdout().lock());
    for case in cases {
        output.write_all(&encode(&case)).map_err(text)?;
    }
    output.flush().map_err(text)
}

fn read_cases() -> Result<Vec<Case>, String> {
    let broken = |broken: Broken| format!("the stream of cases is broken: {broken}");
    read_all(&input()?).map_err(broken)
}

fn print_expected(options: &[String]) -> Done {
    let mut output = BufWriter::new(io::stdout().lock());
    let coverage = expect(&input()?, &mut output).map_err(text)?;
    output.flush().map_err(text)?;
    match options {
        [] => Ok(()),
        [option, file] if option == "--coverage" => fs::write(file, coverage.table()).map_err(text),
        _ => Err(USAGE.to_string()),
    }
}

/// The names of a line's fields up to the page buffer's entries.
fn print_fields() -> Done {
    let first = "case,run,answer,reported steps,table walks,keys taken,console bytes,N";
    println!("{first},{},buffer count", NAMES.join(","));
    Ok(())
}

fn print_coverage() -> Done {
    let mut coverage = Coverage::default();
    for case in read_cases()? {
        coverage.add(&play(&case, None).coverage);
    }
    print!("{}", coverage.report());
    println!("missing: {:?}", coverage.missing(Due::InBulk, &[]));
    Ok(())
}

fn print_comparison(seed: u64, numbers: Range<u64>) -> Done {
    let mut coverage = Coverage::default();
    let mut ended = 0;
    let count = numbers.end - numbers.start;
    for number in numbers {
        let Case::Runs(runs) = case(seed, number, Purpose::TwoMachines) else { continue };
        match compare(&runs, Question::default(), &mut coverage) {
            Verdict::Equal => {}
            Verdict::EqualToStore => ended += 1,
            Verdict::Different(text) => return Err(format!("case {number}: {text}")),
        }
    }
    print!("{}", coverage.report());
    println!("missing: {:?}", coverage.missing(Due::Always, &[0, 1, 2, 4, 5, 6]));
    println!("{count} lists, {ended} of them ended at a store of demand 3's kind");
    Ok(())
}

fn input() -> Result<Vec<u8>, String> {
    let mut bytes = Vec::new();
    io::stdin().lock().read_to_end(&mut bytes).map_err(text)?;
    Ok(bytes)
}

fn print_line(budget: u64) -> Done {
    if budget > MAX_BUDGET {
        return Err(format!("--budget is at most {MAX_BUDGET}"));
    }
    println!("{}", line_by(&Setup { budget, ..Setup::default() }, &input()?));
    Ok(())
}

fn write_files() -> Done {
    io::stdout().lock().write_all(&line_files::stored()).map_err(text)
}

fn print_lines() -> Done {
    for file in line_files::read(&input()?) {
        println!("{}", line(file));
    }
    Ok(())
}

/// All of these streams, or one of them as it is.
fn write_streams(streams: &[Stream], number: u64) -> Done {
    let list = match usize::try_from(number).ok().and_then(|number| streams.get(number)) {
        Some((_, stream)) => stream.clone(),
        None => streams.iter().flat_map(|(_, stream)| with_length(stream)).collect(),
    };
    io::stdout().lock().write_all(&list).map_err(text)
}

fn with_length(bytes: &[u8]) -> Vec<u8> {
    [&(bytes.len() as u32).to_le_bytes(), bytes].concat()
}

fn print_file(seed: u64, number: u64) -> Done {
    io::stdout().lock().write_all(&random_file(seed, number)).map_err(text)
}

fn print_files(seed: u64, numbers: Range<u64>) -> Done {
    let mut output = BufWriter::new(io::stdout().lock());
    for number in numbers {
        output.write_all(&with_length(&random_file(seed, number))).map_err(text)?;
    }
    output.flush().map_err(text)
}

fn print_mutants() -> Done {
    let cases = read_cases()?;
    let judge = Judge::new(&cases);
    let mut untold = Vec::new();
    for mistake in Mistake::ALL {
        let telling = judge.telling(*mistake);
        let by = telling.map_or("none".to_string(), |number| number.to_string());
        println!("told by {by:>4}: {}", mistake.text());
        untold.extend(telling.is_none().then_some(*mistake));
    }
    let mut count = Mistake::ALL.len();
    for family in families() {
        let untold_by = |mistake: &Mistake| judge.telling(*mistake).is_none();
        let left: Vec<Mistake> = family.members.iter().copied().filter(untold_by).collect();
        let members = family.members.len();
        println!("told {:>5} of {members:>5}: {}", members - left.len(), family.text);
        count += members;
        untold.extend(left);
    }
    println!("{count} mistakes, {} of them not told apart", untold.len());
    if untold.is_empty() {
        return Ok(());
    }
    Err(format!("not told apart: {untold:?}"))
}
