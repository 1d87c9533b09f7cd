//! The random calls: the same again, within bounds, and rich enough.

use reference::calls::answer::answers;
use reference::calls::format::{encode, read_all};
use reference::calls::near::{near_misses, Listed};
use reference::calls::Call;
use reference::listing::unlist::unlist;
use reference::load::HEADER;
use reference::opcodes::sets::{is_legal, name_of, LEGAL};
use reference::random::calls::{random_call, random_line};
use reference::random::rng::Rng;
use reference::words::get;
use reference::worked::op;
use std::collections::{BTreeMap, BTreeSet};
use std::process::Command;
use std::sync::LazyLock;

const COUNT: u64 = 16_000;
const LINES: u64 = 60_000;

static CALLS: LazyLock<Vec<Call>> =
    LazyLock::new(|| (0..COUNT).map(|number| random_call(1, number)).collect());

/// What each call gives, of those of one kind.
fn given(kind: u32) -> impl Iterator<Item = (&'static Call, Vec<Option<String>>)> {
    let of_kind = move |call: &&Call| call.kind() == kind;
    CALLS.iter().filter(of_kind).map(|call| (call, answers(call, None)))
}

#[test]
fn written_and_read_again() {
    for call in CALLS.iter().take(2000) {
        assert_eq!(read_all(&encode(call)).unwrap(), std::slice::from_ref(call));
    }
    assert_ne!(random_call(1, 7), random_call(2, 7));
}

#[test]
fn the_command_writes_the_same() {
    let words = ["random-calls", "--seed", "1", "--first", "40", "--count", "30"];
    let output = Command::new(env!("CARGO_BIN_EXE_reference")).args(words).output().unwrap();
    let stream: Vec<u8> = CALLS[40..70].iter().flat_map(encode).collect();
    assert_eq!(output.stdout, stream);
}

#[test]
fn listings_show_every_mnemonic_data_and_refusal() {
    let mut names = BTreeMap::new();
    let [mut by_place, mut by_opcode, mut none] = [0, 0, 0];
    for line in given(1).flat_map(|(_, lines)| lines) {
        let Some(line) = line else {
            none += 1;
            continue;
        };
        let name = match line.strip_prefix("refused ") {
            Some(number) => format!("refused {number}"),
            None => line[18..].split(' ').next().unwrap().to_string(),
        };
        if name == "data" {
            let code = u8::from_str_radix(&line[15..17], 16).unwrap();
            by_place += usize::from(is_legal(code));
            by_opcode += usize::from(!is_legal(code));
        }
        *names.entry(name).or_insert(0) += 1;
    }
    let refused = (7..12).map(|number| format!("refused {number}"));
    let due = LEGAL.iter().map(|code| name_of(*code).to_string()).chain(refused);
    let missing: Vec<String> = due.filter(|name| !names.contains_key(name)).collect();
    assert_eq!(missing, [""; 0]);
    assert!(by_place > 5000 && by_opcode > 1000 && none > 1000, "{by_place}, {by_opcode}, {none}");
}

#[test]
fn ranges_reach_the_ends() {
    let count = |holds: &dyn Fn(u64, u32, u64) -> bool| {
        let asked = given(1).filter(|(call, _)| match call {
            Call::Lines { first, count, file } => {
                let words = file.len().saturating_sub(HEADER).div_ceil(4) as u64;
                holds(*first, *count, words)
            }
            _ => false,
        });
        asked.count()
    };
    assert!(count(&|first, count, words| first == 0 && u64::from(count) > words) > 500);
    assert!(count(&|first, count, _| first.checked_add(u64::from(count)).is_none()) > 20);
    assert!(count(&|first, count, words| first < words && first + u64::from(count) > words) > 500);
    assert!(count(&|first, _, words| first > words && first < words + 10) > 50);
    assert!(count(&|first, _, _| first > 1 << 40) > 200);
    assert!(count(&|_, count, _| count == 0) > 50);
    assert!(count(&|first, count, words| words == 8192 && first < words && count > 0) > 10);
}

#[test]
fn data_starts_and_lengths_are_on_words_and_off() {
    let mut seen = BTreeSet::new();
    for (call, lines) in given(1) {
        let Call::Lines { file, .. } = call else { continue };
        if file.len() > HEADER && !lines.iter().flatten().any(|line| line.starts_with("refused")) {
            let (start, length) = (get(file, 12, 4), (file.len() - HEADER) as u32);
            seen.insert((start % 4, length % 4, start == length, start < 8));
        }
    }
    // Where they are equal, so are their remainders.
    assert!(seen.len() >= 4 * 4 * 2 + 4 * 2, "{seen:?}");
}

#[test]
fn lines_are_of_every_kind_and_many_pass() {
    let rng = &mut Rng::new(3);
    let mut kinds = BTreeMap::new();
    let (mut passed, mut longest) = (0, 0);
    for _ in 0..LINES {
        let (kind, line) = random_line(rng);
        let passes = unlist(&line).0 == 0;
        let counts: &mut [u32; 2] = kinds.entry(kind).or_default();
        counts[usize::from(passes)] += 1;
        passed += u64::from(passes);
        longest = longest.max(line.len());
    }
    let samples = [op("LI", 0), op("LI", -1), op("JMP", 1), op("NOP", 0), op("LLD", 1)];
    let sample = |word: &u32| near_misses(Listed { address: 4, word: *word, data: false });
    let near = samples.iter().flat_map(sample).map(|(name, _)| name);
    let other = ["listed as text", "listed as data", "a byte changed", "a bit changed"];
    let more = ["a byte removed", "a byte added", "two bytes exchanged", "cut"];
    let last = ["refused", "empty", "random bytes", "random text", "one byte often"];
    let due: BTreeSet<&str> = near.chain(other).chain(more).chain(last).collect();
    let often = |kind: &&str| kinds.get(kind).is_some_and(|counts| counts[0] + counts[1] >= 5);
    let rare: Vec<&str> = due.iter().copied().filter(|kind| !often(kind)).collect();
    assert_eq!(rare, [""; 0]);
    assert_eq!(kinds.len(), due.len());
    for kind in ["listed as text", "listed as data"] {
        assert!(kinds[kind][0] == 0 && kinds[kind][1] > 100, "{kind}");
    }
    assert!(passed > LINES / 4 && passed < LINES / 2, "{passed}");
    assert!(longest > 500, "{longest}");
}

/// What a call gives after its number: the answer first.
fn answer(lines: &[Option<String>]) -> u32 {
    let word = lines[0].as_ref().and_then(|line| line.split(' ').next());
    word.and_then(|word| word.parse().ok()).unwrap()
}

#[test]
fn machines_are_saved_and_read_with_every_answer() {
    for (kind, due) in [(3, vec![0, 1, 2, 3, 5, 13]), (4, vec![0, 1, 13, 14, 15, 16])] {
        let mut counts = BTreeMap::new();
        for (_, lines) in given(kind) {
            assert_eq!(lines.len(), 1);
            *counts.entry(answer(&lines)).or_insert(0) += 1;
        }
        assert!(counts.keys().eq(&due), "kind {kind}: {counts:?}");
        assert!(counts.values().all(|count| *count >= 25), "kind {kind}: {counts:?}");
    }
}

/// Of those that are accepted: entries from none to all, stop reasons, causes,
/// waiting, marks, a memory of many pages, files and consoles that are longer.
#[test]
fn accepted_machines_are_of_every_kind() {
    let mut seen: BTreeMap<String, u32> = BTreeMap::new();
    let mut count = |name: String, holds: bool| *seen.entry(name).or_default() += u32::from(holds);
    for (call, lines) in given(3).filter(|(_, lines)| answer(lines) == 0) {
        let Call::Save(save) = call else { continue };
        let words: Vec<u64> =
            lines[0].as_ref().unwrap().split(' ').map(|word| word.parse().unwrap()).collect();
        let (regs, entries) = (&save.record.regs, save.record.buffer.count);
        count(format!("stop {}", regs.stop as u32), true);
        count(format!("cause {}", regs.cause as u32), true);
        count("waiting".to_string(), regs.waiting);
        count("doubles".to_string(), regs.mode);
        count("f and g in the old mode".to_string(), !regs.mode && regs.f != 0 && regs.g != 0);
        count("a mark".to_string(), regs.key_pending || regs.timer_pending);
        count("keys taken".to_string(), regs.keys > 0);
        count("no entry".to_string(), entries == 0);
        count("some entries".to_string(), entries > 0 && entries < 64);
        count("64 entries".to_string(), entries == 64);
        count("a full console".to_string(), regs.written == save.console.len() as u64);
        count("a longer console".to_string(), regs.written < save.console.len() as u64);
        count("a file that fits".to_string(), words[1] == save.file_length as u64);
        count("a longer file".to_string(), words[1] < save.file_length as u64);
        count("32 pages".to_string(), save.memory.len() == 131_072);
        count("a count of 63 bits".to_string(), regs.count > 1 << 62);
    }
    assert_eq!(seen.len(), 4 + 8 + 14, "{seen:?}");
    assert!(seen.values().all(|count| *count >= 5), "{seen:?}");
}
