//! Listings against lines worked out by hand, and the table's forms.

use reference::listing::form::{form_of, Form};
use reference::listing::{list, Listing};
use reference::load::executable;
use reference::opcodes::sets::{line_of, name_of, LEGAL};
use reference::worked::op;

fn bytes(words: &[u32]) -> Vec<u8> {
    words.iter().flat_map(|word| word.to_le_bytes()).collect()
}

fn text(words: &[u32]) -> Vec<u8> {
    executable(0, 0, 4 * words.len() as u32, &bytes(words))
}

/// The mnemonics whose operand has this form.
fn with_form(form: Form) -> Vec<&'static str> {
    let has = |code: &&u8| line_of(**code).map(form_of) == Some(form);
    LEGAL.iter().filter(has).map(|code| name_of(*code)).collect()
}

#[test]
fn forms_are_counted_and_named() {
    assert_eq!(LEGAL.len(), 137);
    let [bare, number, target] = Form::ALL.map(with_form);
    assert_eq!(number.len() + target.len(), 88);
    let names = ["JMP", "JSR", "BZ", "BNZ", "BE", "BNE", "BLT", "BLTU", "BGE", "BGEU"];
    assert_eq!(target, names);
    for name in ["HALT", "TIME", "PSHI", "JMPI", "LEV", "LHI", "LBHI", "ENT", "SHLI"] {
        assert!(number.contains(&name), "{name}");
    }
    for name in ["NOP", "RTI", "JSRA", "MCPY", "ADD", "STI", "IDLE", "PSHA", "LCA"] {
        assert!(bare.contains(&name), "{name}");
    }
}

#[test]
fn no_other_opcode_writes_imme_without_i() {
    let without_i = |code: &&u8| line_of(**code).is_some_and(|line| !line.operand);
    let numbers = with_form(Form::Number);
    let names: Vec<&str> = LEGAL.iter().filter(without_i).map(|code| name_of(*code)).collect();
    let both: Vec<&&str> = names.iter().filter(|name| numbers.contains(name)).collect();
    assert_eq!(both, [&"PSHI"]);
}

#[test]
fn worked_lines() {
    let words = [
        op("LI", 0),
        op("LHI", 0x92_7c00),
        op("HALT", 0),
        0x8000_0003,
        0x0000_129b,
        0xffff_e805,
        op("LLD", 1),
        op("PSHI", -5),
        op("TIME", 7),
        op("JMPI", 3),
        op("LBHI", -1),
        op("JMP", 2),
        0x7fff_ff84,
        op("LEV", 16),
    ];
    let lines = [
        "00000000 00000023 LI 0",
        "00000004 927c0024 LHI -7177216",
        "00000008 00000000 HALT 0",
        "0000000c 80000003 JMP ff800010",
        "00000010 0000129b NOP",
        "00000014 ffffe805 JSR 00000000",
        "00000018 00000113 data",
        "0000001c fffffb9e PSHI -5",
        "00000020 000007a7 TIME 7",
        "00000024 00000304 JMPI 3",
        "00000028 ffffff3c LBHI -1",
        "0000002c 00000203 JMP 00000032",
        "00000030 7fffff84 BZ 00800033",
        "00000034 00001002 LEV 16",
    ];
    assert_eq!(list(&text(&words)), lines);
}

#[test]
fn the_feed_example() {
    let lines = list(include_bytes!("../../examples/feed.v9"));
    assert_eq!(lines.len(), 21);
    assert_eq!(lines[5], "00000014 00000c05 JSR 00000024");
    assert_eq!(lines[11], "0000002c 00000484 BZ 00000034");
    assert_eq!(lines[12], "00000030 fffff005 JSR 00000024");
    assert_eq!(
        lines[18..],
        ["00000048 00000002 LEV 0", "0000004c 00000028 data", "00000050 0000000f data",]
    );
}

#[test]
fn data_start_on_a_word_and_off_it() {
    let body = bytes(&[op("LI", 1), op("LI", 2), op("LI", 3)]);
    let names = |start: u32| -> Vec<String> {
        let lines = list(&executable(0, 0, start, &body));
        lines.iter().map(|line| line[18..].to_string()).collect()
    };
    assert_eq!(names(4), ["LI 1", "data", "data"]);
    for start in 5..=8 {
        assert_eq!(names(start), ["LI 1", "LI 2", "data"]);
    }
    for start in 9..=12 {
        assert_eq!(names(start), ["LI 1", "LI 2", "LI 3"]);
    }
    for start in [0, 3] {
        assert_eq!(list(&executable(0, 0, start, &body)), ["refused 11"]);
    }
    assert_eq!(list(&executable(0, 0, 13, &body)), ["refused 10"]);
}

#[test]
fn a_short_last_word() {
    let file = |start: u32, body: &[u8]| executable(0, 0, start, body);
    let body = [0x9b, 0, 0, 0, 0x23, 0xfe, 0xff];
    assert_eq!(list(&file(5, &body[..5]))[1], "00000004 00000023 LI 0");
    assert_eq!(list(&file(6, &body[..6]))[1], "00000004 0000fe23 LI 254");
    assert_eq!(list(&file(7, &body))[1], "00000004 00fffe23 LI 65534");
    assert_eq!(list(&file(4, &body)), ["00000000 0000009b NOP", "00000004 00fffe23 data"]);
    assert_eq!(list(&file(3, &body[..3])), ["refused 11"]);
}

#[test]
fn the_ends_of_memory() {
    let mut body = vec![0; 32_768];
    body[32_764..].copy_from_slice(&op("JMP", -1).to_le_bytes());
    let lines = list(&executable(0, 0, 32_768, &body));
    assert_eq!(lines.len(), 8192);
    assert_eq!(lines[8190], "00007ff8 00000000 HALT 0");
    assert_eq!(lines[8191], "00007ffc ffffff03 JMP 00007fff");
    let lines = list(&executable(0, 0, 4, &body[..32_767]));
    assert_eq!(lines[8191], "00007ffc 00ffff03 data");
    body.push(0);
    assert_eq!(list(&executable(0, 0, 4, &body)), ["refused 9"]);
}

#[test]
fn refused_files_have_one_line() {
    let word = [0; 4];
    let mut wrong = executable(0, 0, 4, &word);
    wrong[3] = 0;
    assert_eq!(list(&[]), ["refused 7"]);
    assert_eq!(list(&wrong[..15]), ["refused 7"]);
    assert_eq!(list(&wrong), ["refused 8"]);
    assert_eq!(list(&executable(0, 0, 0, &[])), ["refused 9"]);
    assert_eq!(list(&executable(0, 2, 5, &word)), ["refused 10"]);
    assert_eq!(list(&executable(0, 2, 4, &word)), ["refused 11"]);
}

#[test]
fn numbers_of_lines() {
    let file = text(&[op("LI", 0), op("HALT", 0)]);
    let [good, refused] = [&file[..], &file[..9]].map(|file| Listing::new(file, None));
    assert_eq!(good.line(1).as_deref(), Some("00000004 00000000 HALT 0"));
    assert_eq!(refused.line(0).as_deref(), Some("refused 7"));
    assert_eq!(refused.line(1), None);
    for number in [2, 3, 1 << 30, 1 << 32, 1 << 62, 1 << 63, u64::MAX] {
        assert_eq!(good.line(number), None);
        assert_eq!(refused.line(number), None);
    }
}
