//! Broken streams: what `expect` prints of them. FORMAT.md, "The last line".

use reference::broken::{good, load, streams};
use reference::expect::expect;

fn printed(stream: &[u8]) -> String {
    let mut output = Vec::new();
    expect(stream, &mut output).unwrap();
    String::from_utf8(output).unwrap()
}

/// The lines of the two cases that every stream begins with.
fn first_lines() -> String {
    let whole = printed(&[good(), load()].concat());
    whole.strip_suffix("end 2\n").unwrap().to_string()
}

#[test]
fn each_is_called_what_it_is_and_nothing_follows() {
    let first = first_lines();
    let mut seen = [0; 3];
    for (nth, (kind, stream)) in streams().iter().enumerate() {
        let text = printed(stream);
        let rest = text.strip_prefix(&first).unwrap_or_else(|| panic!("stream {nth}: {text}"));
        if let Some(broken) = kind {
            assert_eq!(rest, format!("broken 2 {broken}\n"), "stream {nth}");
            seen[*broken as usize] += 1;
        } else {
            let last = rest.lines().last().unwrap();
            assert!(["end 2", "end 3"].contains(&last), "stream {nth}: {last}");
        }
    }
    assert!(seen.iter().all(|count| *count >= 12), "{seen:?}");
}

#[test]
fn the_first_case_has_number_0() {
    let before = good().len() + load().len();
    for (kind, stream) in streams() {
        if let Some(broken) = kind {
            assert_eq!(printed(&stream[before..]), format!("broken 0 {broken}\n"));
        }
    }
}

#[test]
fn good_streams_say_how_many_cases_they_had() {
    assert_eq!(printed(&[]), "end 0\n");
    assert_eq!(printed(&[0; 4]), "end 0\n");
    let text = printed(&[good(), load(), vec![0; 4], vec![9; 3]].concat());
    assert_eq!(text.lines().count(), 4 + 1 + 1);
    assert!(text.ends_with("\nend 2\n"));
}

#[test]
fn cut_anywhere() {
    for case in [good(), load()] {
        for length in 1..case.len() {
            assert_eq!(printed(&case[..length]), "broken 0 cut\n");
        }
    }
}

#[test]
fn shorter_by_its_length_anywhere() {
    for case in [good(), load()] {
        for length in 8..case.len() {
            let mut shorter = case[..length].to_vec();
            shorter[..4].copy_from_slice(&(length as u32).to_le_bytes());
            assert_eq!(printed(&shorter), "broken 0 malformed\n");
        }
    }
}
