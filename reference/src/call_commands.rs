//! The commands on listings, saved machines and calls.

use super::{input, text, Done};
use reference::calls::answer::expect;
use reference::calls::format::{encode, read_all};
use reference::calls::mutants::{CallMistake, Judge};
use reference::calls::stored::all;
use reference::calls::{Call, KIND_LINES, KIND_READ, KIND_RESTORE, KIND_SAVE};
use reference::families::Family;
use reference::line::{refused, resumed, saved};
use reference::listing::list as listing;
use reference::listing::mistake::{load_family, opcode_families, ListingMistake};
use reference::listing::unlist::unlist as read_line;
use reference::random::calls::random_call;
use reference::snapshot::families::{file_families, read_families, save_families};
use reference::snapshot::mistake::SnapshotMistake;
use reference::stream::Broken;
use std::io::{self, BufWriter, Write};
use std::ops::Range;

/// The listing of an executable.
pub fn list() -> Done {
    let mut output = BufWriter::new(io::stdout().lock());
    for line in listing(&input()?) {
        writeln!(output, "{line}").map_err(text)?;
    }
    output.flush().map_err(text)
}

/// What each line of the input comes from. A newline ends a line.
pub fn unlist() -> Done {
    let bytes = input()?;
    let mut lines: Vec<&[u8]> = bytes.split(|byte| *byte == b'\n').collect();
    if lines.last().is_some_and(|line| line.is_empty()) {
        lines.pop();
    }
    let mut output = BufWriter::new(io::stdout().lock());
    for line in lines {
        match read_line(line) {
            (0, address, word) => writeln!(output, "{address:08x} {word:08x}"),
            (answer, _, _) => writeln!(output, "refused {answer}"),
        }
        .map_err(text)?;
    }
    output.flush().map_err(text)
}

/// A machine saved after its run. Where the load is refused nothing is written
/// but that.
pub fn save() -> Done {
    match saved(&input()?) {
        Ok(file) => io::stdout().lock().write_all(&file).map_err(text),
        Err(answer) => {
            eprintln!("{}", refused(answer));
            Ok(())
        }
    }
}

/// The line of a saved machine that runs on.
pub fn resume() -> Done {
    println!("{}", resumed(&input()?));
    Ok(())
}

fn write_all(calls: impl Iterator<Item = Call>) -> Done {
    let mut output = BufWriter::new(io::stdout().lock());
    for call in calls {
        output.write_all(&encode(&call)).map_err(text)?;
    }
    output.flush().map_err(text)
}

pub fn write_stored() -> Done {
    write_all(all().into_iter().map(|(_, call)| call))
}

pub fn write_random(seed: u64, numbers: Range<u64>) -> Done {
    write_all(numbers.map(|number| random_call(seed, number)))
}

pub fn print_expected() -> Done {
    let mut output = BufWriter::new(io::stdout().lock());
    expect(&input()?, &mut output).map_err(text)?;
    output.flush().map_err(text)
}

/// Mistakes that no call told apart.
type Untold = Vec<CallMistake>;

/// The kinds of call in each of which a mistake must show, and their name.
type Asked = (&'static [u32], &'static str);

const LISTED: Asked = (&[KIND_LINES], "listed");
const READ_BACK: Asked = (&[KIND_READ], "read back");
const SAVED: Asked = (&[KIND_SAVE], "saved");
const RESTORED: Asked = (&[KIND_RESTORE], "read");

pub fn print_mutants() -> Done {
    let broken = |broken: Broken| format!("the stream of calls is broken: {broken}");
    let calls = read_all(&input()?).map_err(broken)?;
    let judge = Judge::new(&calls);
    let mut mutants = Mutants { judge: &judge, count: 0, untold: Untold::new() };
    for mistake in ListingMistake::ALL {
        mutants.single(*mistake, mistake.text(), &[(&[KIND_LINES, KIND_READ], "")]);
    }
    for mistake in SnapshotMistake::ALL {
        let either: Asked = (&[KIND_SAVE, KIND_RESTORE], "");
        let asked = if mistake.is_about_file() { vec![SAVED, RESTORED] } else { vec![either] };
        mutants.single(*mistake, mistake.text(), &asked);
    }
    mutants.families(opcode_families(), &[LISTED, READ_BACK]);
    mutants.families(vec![load_family()], &[LISTED]);
    mutants.families(file_families(), &[SAVED, RESTORED]);
    mutants.families(save_families(), &[SAVED]);
    mutants.families(read_families(), &[RESTORED]);
    println!("{} mistakes, {} of them not told apart", mutants.count, mutants.untold.len());
    if mutants.untold.is_empty() {
        return Ok(());
    }
    Err(format!("not told apart: {:?}", mutants.untold))
}

/// The planted mistakes so far.
struct Mutants<'a> {
    judge: &'a Judge<'a>,
    count: usize,
    untold: Untold,
}

impl Mutants<'_> {
    /// One that stands alone.
    fn single(&mut self, mistake: impl Into<CallMistake> + Copy, text: &str, asked: &[Asked]) {
        for (kinds, direction) in asked {
            let telling = self.judge.telling(mistake, kinds);
            let by = telling.map_or("none".to_string(), |number| number.to_string());
            let direction =
                if direction.is_empty() { String::new() } else { format!(", {direction}") };
            println!("told by {by:>4}{direction}: {text}");
            self.count += 1;
            self.untold.extend(telling.is_none().then(|| mistake.into()));
        }
    }

    /// Those of families, by calls of each of these kinds.
    fn families<M>(&mut self, families: Vec<Family<M>>, asked: &[Asked])
    where
        M: Into<CallMistake> + Copy,
    {
        for family in families {
            for (kinds, direction) in asked {
                let untold = |mistake: &&M| self.judge.telling(**mistake, kinds).is_none();
                let left: Vec<&M> = family.members.iter().filter(untold).collect();
                let (told, members) = (family.members.len() - left.len(), family.members.len());
                println!("told {told:>5} of {members:>5}, {direction}: {}", family.text);
                self.count += members;
                self.untold.extend(left.into_iter().map(|mistake| (*mistake).into()));
            }
        }
    }
}
