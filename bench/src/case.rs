//! The format of `reference/FORMAT.md`: cases are written and read, and run in the plain interpreter.

use crate::plain::{load, Entry, Key, Machine, Outcome};

/// A run's keys and budget.
pub struct Run {
    pub keys: Vec<Key>,
    pub budget: u64,
}

/// One machine, and runs that are handed on, made by some of the library's entries.
pub struct Case {
    pub entries: u32,
    pub machine: Machine,
    pub runs: Vec<Run>,
}

/// The library's entries, by their numbers in a case; the last is `run_packed` in calls of budget 1.
pub const RUN_PACKED: u32 = 2;
pub const SINGLE_STEP: u32 = 4;
const PACKED_BY_ONE: u32 = 8;
const ALL: [u32; 4] = [1, RUN_PACKED, SINGLE_STEP, PACKED_BY_ONE];

/// The record's numbers in the order of the format. A further field of `Machine` gets its place here.
macro_rules! numbers {
    ($($name:ident: $type:ident,)*) => {
        const NUMBERS: usize = [$(stringify!($name),)*].len();

        fn numbers(m: &Machine) -> [u64; NUMBERS] {
            [$(m.$name as u64,)*]
        }

        fn set_numbers(m: &mut Machine, numbers: [u64; NUMBERS]) {
            let [$($name,)*] = numbers;
            $(m.$name = numbers!(@$type $name);)*
        }
    };
    (@flag $name:ident) => { $name != 0 };
    (@word $name:ident) => { $name as u32 };
    (@long $name:ident) => { $name };
}

numbers! {
    a: word, b: word, c: word, sp: word, usp: word, ksp: word, pc: word, ivec: word, pdir: word, vadr: word, timer: word, timeout: word, kbchar: word,
    user: flag, iena: flag, paging: flag, waiting: flag, key_pending: flag, timer_pending: flag, stop: word, cause: word, count: long,
    mode: flag, f: long, g: long,
}

/// Memory is written in chunks of this many bytes, but for those that are all zero.
const CHUNK: usize = 4096;

/// The bytes of a case that starts with an empty page buffer and an empty console.
pub fn encode(case: &Case) -> Vec<u8> {
    let machine = &case.machine;
    let chunks = machine.memory.chunks(CHUNK).enumerate();
    let chunks: Vec<_> = chunks.filter(|(_, bytes)| bytes.iter().any(|byte| *byte != 0)).collect();
    let mut body = Vec::new();
    let lent = [machine.memory.len() as u32, machine.console.len() as u32];
    // no entries, no slots, no console bytes
    let counts = [0, 0, chunks.len() as u32, 0, case.runs.len() as u32];
    words(&mut body, &[&[1, case.entries], &lent[..], &counts].concat());
    longs(&mut body, &[machine.taken as u64, machine.written as u64]);
    words(&mut body, &[NUMBERS as u32]);
    longs(&mut body, &numbers(machine));
    for (at, bytes) in chunks {
        words(&mut body, &[(at * CHUNK) as u32, bytes.len() as u32]);
        body.extend_from_slice(bytes);
    }
    for run in &case.runs {
        words(&mut body, &[run.keys.len() as u32]);
        for key in &run.keys {
            longs(&mut body, &[key.step]);
            body.push(key.byte);
        }
        longs(&mut body, &[run.budget]);
    }
    let mut out = ((body.len() + 4) as u32).to_le_bytes().to_vec();
    out.extend_from_slice(&body);
    out
}

fn words(bytes: &mut Vec<u8>, list: &[u32]) {
    bytes.extend(list.iter().flat_map(|word| word.to_le_bytes()));
}

fn longs(bytes: &mut Vec<u8>, list: &[u64]) {
    bytes.extend(list.iter().flat_map(|long| long.to_le_bytes()));
}

/// Bytes read from the front.
struct Reader<'a>(&'a [u8]);

impl<'a> Reader<'a> {
    fn bytes(&mut self, count: usize) -> &'a [u8] {
        let (first, rest) = self.0.split_at(count);
        self.0 = rest;
        first
    }
    fn words<const N: usize>(&mut self) -> [u32; N] {
        std::array::from_fn(|_| u32::from_le_bytes(self.bytes(4).try_into().unwrap()))
    }
    fn sizes<const N: usize>(&mut self) -> [usize; N] {
        self.words().map(|word| word as usize)
    }
    fn longs<const N: usize>(&mut self) -> [u64; N] {
        std::array::from_fn(|_| u64::from_le_bytes(self.bytes(8).try_into().unwrap()))
    }
}

/// A case of runs, after its kind.
fn decode(from: &mut Reader) -> Case {
    let [entries] = from.words();
    let [memory, console] = from.sizes().map(|size| vec![0; size]);
    let mut m = Machine::zero(memory, console);
    let [held, slots, chunks, given, runs] = from.sizes();
    m.held = held;
    [m.taken, m.written] = from.longs().map(|number| number as usize);
    let [length] = from.sizes();
    assert_eq!(length, NUMBERS, "numbers of the record");
    set_numbers(&mut m, from.longs());
    for entry in &mut m.entries[..slots] {
        let [page, frame, user, write] = from.words();
        *entry = Entry { page, frame, user: user != 0, write: write != 0 };
    }
    for _ in 0..chunks {
        let [at, length] = from.sizes();
        m.memory[at..at + length].copy_from_slice(from.bytes(length));
    }
    m.console[..given].copy_from_slice(from.bytes(given));
    Case { entries, machine: m, runs: (0..runs).map(|_| decode_run(from)).collect() }
}

fn decode_run(from: &mut Reader) -> Run {
    let [count] = from.sizes();
    let key = |from: &mut Reader| {
        let [step] = from.longs();
        Key { step, byte: from.bytes(1)[0] }
    };
    let keys = (0..count).map(|_| key(from)).collect();
    let [budget] = from.longs();
    Run { keys, budget }
}

/// The lines of all cases of a good stream.
pub fn result_lines(bytes: &[u8]) -> String {
    let mut rest = Reader(bytes);
    let mut out = String::new();
    for number in 0.. {
        let [length] = if rest.0.is_empty() { [0] } else { rest.sizes() };
        if length == 0 {
            out.push_str(&format!("end {number}\n"));
            break;
        }
        let mut from = Reader(rest.bytes(length - 4));
        let [kind] = from.words();
        if kind == 1 {
            run_lines(number, &decode(&mut from), &mut out);
        } else {
            let [size, fill, length] = from.sizes();
            let (answer, machine) = load(from.bytes(length), vec![fill as u8; size]);
            out.push_str(&line([number, 0], Outcome { answer, steps: 0, walks: 0 }, &machine));
        }
    }
    out
}

/// The runs of a case, made by each of its entries from the same start.
fn run_lines(number: usize, case: &Case, out: &mut String) {
    for entry in ALL.iter().filter(|entry| case.entries & **entry != 0) {
        let mut machine = case.machine.clone();
        for (at, run) in case.runs.iter().enumerate() {
            let outcome = match *entry {
                // returns its answer alone
                SINGLE_STEP => Outcome { walks: 0, ..calls_of_one(&mut machine, run) },
                PACKED_BY_ONE => calls_of_one(&mut machine, run),
                _ => machine.run(&run.keys, run.budget),
            };
            out.push_str(&line([number, at], outcome, &machine));
        }
    }
}

/// Calls of budget 1, as many as the budget has steps, to the first that makes none; what document 01 makes different is not divided.
fn calls_of_one(machine: &mut Machine, run: &Run) -> Outcome {
    let mut left = run.budget;
    let [mut steps, mut walks] = [0; 2];
    loop {
        let whole = left == 0 || left > 1_000_000 || machine.count >= (1 << 63) - 1;
        let budget = if whole { left } else { 1 };
        let one = machine.run(&run.keys, budget);
        steps += one.steps;
        walks += one.walks;
        left -= budget;
        if left == 0 || one.steps == 0 {
            return Outcome { steps, walks, ..one };
        }
    }
}

fn line(place: [usize; 2], outcome: Outcome, m: &Machine) -> String {
    let mut list: Vec<u64> = place.map(|number| number as u64).to_vec();
    list.extend([outcome.answer as u64, outcome.steps, outcome.walks]);
    list.extend([m.taken as u64, m.written as u64, NUMBERS as u64]);
    list.extend(numbers(m));
    list.push(m.held as u64);
    for entry in &m.entries[..m.held.min(64)] {
        let rights = [entry.user, entry.write].map(u64::from);
        list.extend([entry.page as u64, entry.frame as u64]);
        list.extend(rights);
    }
    for bytes in [&m.memory, &m.console] {
        list.push(digest(bytes, 1000003, 4294967311));
        list.push(digest(bytes, 998244353, 4294967357));
    }
    let words: Vec<String> = list.iter().map(u64::to_string).collect();
    words.join(" ") + "\n"
}

fn digest(bytes: &[u8], factor: u64, modulus: u64) -> u64 {
    bytes.chunks(4).fold(bytes.len() as u64, |x, chunk| {
        let mut word = [0; 4];
        word[..chunk.len()].copy_from_slice(chunk);
        (x * factor + u32::from_le_bytes(word) as u64) % modulus
    })
}
