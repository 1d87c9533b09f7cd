//! Streams of calls: CALLS.md's examples, what comes back, broken streams. The
//! stored calls: what they tell apart.

use reference::calls::answer::expect;
use reference::calls::broken::{lines, read, streams};
use reference::calls::broken_machines::{restore, save};
use reference::calls::format::{encode, read_all};
use reference::calls::mutants::{CallMistake, Judge};
use reference::calls::stored::all;
use reference::calls::stored::machines::machines;
use reference::calls::stored::restores::restore_of;
use reference::calls::{Call, Restore, Save};
use reference::calls::{KIND_LINES, KIND_READ, KIND_RESTORE, KIND_SAVE};
use reference::families::Family;
use reference::listing::mistake::{load_family, opcode_families, ListingMistake};
use reference::load::executable;
use reference::snapshot::families::{file_families, read_families, save_families};
use reference::snapshot::mistake::SnapshotMistake;
use reference::types::Registers;

const PAGE: &str = include_str!("../CALLS.md");

fn printed(stream: &[u8]) -> String {
    let mut output = Vec::new();
    expect(stream, &mut output).unwrap();
    String::from_utf8(output).unwrap()
}

/// The page's example after this title has these bytes and gives these lines.
fn check_example(title: &str, calls: &[Call]) {
    let text = PAGE.split(title).nth(1).unwrap().split("## ").next().unwrap();
    let (input, output) = text.split_once("gives").unwrap();
    let block = |text: &'static str| text.lines().filter_map(|line| line.strip_prefix("    "));
    let digits: String = block(input).flat_map(|line| line.split(' ')).collect();
    let bytes: Vec<u8> = (0..digits.len() / 2)
        .map(|at| u8::from_str_radix(&digits[2 * at..2 * at + 2], 16).unwrap())
        .collect();
    assert_eq!(calls.iter().flat_map(encode).collect::<Vec<u8>>(), bytes);
    assert_eq!(read_all(&bytes).unwrap(), calls);
    assert_eq!(printed(&bytes), block(output).flat_map(|line| [line, "\n"]).collect::<String>());
}

#[test]
fn documented_example() {
    let file = executable(0, 0, 4, &[0x23, 7, 0, 0, 1, 0, 0, 0]);
    let calls = [
        Call::Lines { first: 1, count: 2, file },
        Call::read("00000000 00000723 LI 7"),
        Call::read("00000000 00000723 LI 7 "),
    ];
    check_example("## Example\n", &calls);
}

#[test]
fn documented_machine() {
    let regs = Registers { a: 7, sp: 4096, pc: 4, count: 1, ..Registers::default() };
    let machine =
        Save::new(4096, regs).words(0, &[0x723]).console(&[0x41, 0, 0], 1).entry(1, 0, true, false);
    let read = Restore { console_length: 2, fill: 170, ..restore_of(&machine) };
    let mut refused = read.clone();
    refused.file[80] = 2;
    let saved = Save { file_length: 4260, fill: 255, ..machine };
    check_example(
        "## Example: a machine saved and read\n",
        &[saved.into(), read.into(), refused.into()],
    );
}

#[test]
fn every_field_comes_back() {
    let calls = [
        Call::Lines { first: 0x0102_0304_0506_0708, count: 8193, file: vec![1, 2, 3] },
        Call::Lines { first: u64::MAX, count: 0, file: Vec::new() },
        Call::Lines { first: 0, count: 1, file: vec![9; 131_072 - 24] },
        Call::read(""),
        Call::read([0, 10, 255]),
        Call::read(vec![b' '; 131_072 - 12]),
        Restore { file: vec![0; 139_264], memory_length: 131_072, console_length: 4096, fill: 255 }
            .into(),
        Restore { file: vec![9, 0], memory_length: 0, console_length: 0, fill: 0 }.into(),
    ];
    let machines = machines().into_iter().map(|(_, machine)| Call::from(machine));
    let calls: Vec<Call> = calls.into_iter().chain(machines).collect();
    let stream: Vec<u8> = calls.iter().flat_map(encode).collect();
    assert_eq!(read_all(&stream).unwrap(), calls);
    let ended = [&stream[..], &[0; 4], &[1; 9]].concat();
    assert_eq!(read_all(&ended).unwrap(), calls);
}

#[test]
fn numbers_wrap_and_end() {
    let file = executable(0, 0, 4, &[0x23, 5, 0, 0]);
    let asked = |first, count| printed(&encode(&Call::Lines { first, count, file: file.clone() }));
    let line = "0 00000000 00000523 LI 5\n";
    assert_eq!(asked(0, 0), "end 1\n");
    assert_eq!(asked(0, 2), format!("{line}0\nend 1\n"));
    assert_eq!(asked(1, 1), "0\nend 1\n");
    assert_eq!(asked(u64::MAX, 3), format!("0\n{line}0\nend 1\n"));
}

/// The lines of the two calls that every stream begins with.
fn first_lines() -> String {
    let whole = printed(&[lines(), read()].concat());
    whole.strip_suffix("end 2\n").unwrap().to_string()
}

#[test]
fn each_is_called_what_it_is_and_nothing_follows() {
    let first = first_lines();
    assert_eq!(first.lines().count(), 4);
    let mut seen = [0; 3];
    for (nth, (kind, stream)) in streams().iter().enumerate() {
        let text = printed(stream);
        let rest = text.strip_prefix(&first).unwrap_or_else(|| panic!("stream {nth}: {text}"));
        if let Some(broken) = kind {
            assert_eq!(rest, format!("broken 2 {broken}\n"), "stream {nth}");
            seen[*broken as usize] += 1;
        } else {
            let last = rest.lines().last().unwrap();
            assert!(["end 2", "end 3"].contains(&last), "stream {nth}: {last}");
        }
    }
    assert!(seen.iter().all(|count| *count >= 20), "{seen:?}");
}

#[test]
fn the_first_call_has_number_0() {
    let before = lines().len() + read().len();
    for (kind, stream) in streams() {
        if let Some(broken) = kind {
            assert_eq!(printed(&stream[before..]), format!("broken 0 {broken}\n"));
        }
    }
}

#[test]
fn cut_anywhere_and_shorter_by_its_length_anywhere() {
    for call in [lines(), read(), save(), restore()] {
        for length in 1..call.len() {
            assert_eq!(printed(&call[..length]), "broken 0 cut\n");
        }
        for length in 8..call.len() {
            let mut shorter = call[..length].to_vec();
            shorter[..4].copy_from_slice(&(length as u32).to_le_bytes());
            assert_eq!(printed(&shorter), "broken 0 malformed\n");
        }
    }
}

#[test]
fn stored_calls_are_small() {
    let stream: Vec<u8> = all().iter().flat_map(|(_, call)| encode(call)).collect();
    let output = printed(&stream);
    assert!(stream.len() + output.len() < 520_000, "{} and {}", stream.len(), output.len());
    assert!(output.ends_with(&format!("\nend {}\n", all().len())));
}

/// Those of some families that calls of one of these kinds don't tell apart.
fn untold<M>(judge: &Judge, families: Vec<Family<M>>, kinds: &[u32]) -> Vec<CallMistake>
where
    M: Into<CallMistake> + Copy,
{
    let members = families.into_iter().flat_map(|family| family.members).map(M::into);
    let each = |mistake: CallMistake| kinds.iter().map(move |kind| (mistake, *kind));
    let left = |(mistake, kind): &(CallMistake, u32)| judge.telling(*mistake, &[*kind]).is_none();
    members.flat_map(each).filter(left).map(|(mistake, _)| mistake).collect()
}

#[test]
fn stored_calls_tell_every_planted_mistake_apart() {
    let calls: Vec<Call> = all().into_iter().map(|(_, call)| call).collect();
    let judge = Judge::new(&calls);
    let (listings, files) = ([KIND_LINES, KIND_READ], [KIND_SAVE, KIND_RESTORE]);
    let mut left: Vec<CallMistake> = Vec::new();
    for mistake in ListingMistake::ALL {
        if judge.telling(*mistake, &listings).is_none() {
            left.push((*mistake).into());
        }
    }
    for mistake in SnapshotMistake::ALL {
        // One about the file must show in saving and in reading.
        let told = |kinds: &[u32]| judge.telling(*mistake, kinds).is_some();
        if !told(&files) || (mistake.is_about_file() && !files.iter().all(|kind| told(&[*kind]))) {
            left.push((*mistake).into());
        }
    }
    // A wrong reading of an opcode must show in listings and in lines read back.
    left.extend(untold(&judge, opcode_families(), &listings));
    left.extend(untold(&judge, vec![load_family()], &[KIND_LINES]));
    left.extend(untold(&judge, file_families(), &files));
    left.extend(untold(&judge, save_families(), &[KIND_SAVE]));
    left.extend(untold(&judge, read_families(), &[KIND_RESTORE]));
    assert_eq!(left, []);
    assert!(ListingMistake::ALL.len() > 60 && SnapshotMistake::ALL.len() > 50);
}
