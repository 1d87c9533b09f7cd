//! Lines read back: those worked out by hand, and that exactly those pass that
//! some accepted file lists.

use reference::calls::near::Listed;
use reference::calls::stored::all;
use reference::calls::Call;
use reference::listing::unlist::{unlist, UNLISTED};
use reference::listing::{list, Listing};
use reference::load::{executable, HEADER};
use reference::opcodes::sets::is_legal;
use reference::random::calls::{random_call, random_line};
use reference::random::executables::random_file;
use reference::random::rng::Rng;
use reference::words::get;

/// Lines that a file lists, with their address and word.
const LISTED: [(&str, u32, u32); 18] = [
    ("00000000 00000023 LI 0", 0, 0x23),
    ("00000004 927c0024 LHI -7177216", 4, 0x927c_0024),
    ("00000008 00000000 HALT 0", 8, 0),
    ("00000008 00000000 data", 8, 0),
    ("00000000 000000ff data", 0, 0xff),
    ("00000004 000000ff data", 4, 0xff),
    ("00000014 ffffe805 JSR 00000000", 0x14, 0xffff_e805),
    ("0000000c 80000003 JMP ff800010", 0xc, 0x8000_0003),
    ("00000000 00000303 JMP 00000007", 0, 0x303),
    ("00000000 00000304 JMPI 3", 0, 0x304),
    ("00000010 0000129b NOP", 0x10, 0x129b),
    ("00000010 0000059e PSHI 5", 0x10, 0x59e),
    ("00000010 000005a7 TIME 5", 0x10, 0x5a7),
    ("00000010 00000102 LEV 1", 0x10, 0x102),
    ("00000010 00000198 RTI", 0x10, 0x198),
    ("00000010 00000106 JSRA", 0x10, 0x106),
    ("00000010 00000113 data", 0x10, 0x113),
    ("00007ffc 00000023 LI 0", 0x7ffc, 0x23),
];

/// The longest has 31 bytes.
const LONGEST: &str = "00007ffc ffffff90 BGEU 00007fff";

#[test]
fn stored_worked_lines() {
    let mut refused = 0;
    for (name, call) in all() {
        let Call::Read(line) = call else { continue };
        if name != "worked" || line == LONGEST.as_bytes() {
            continue;
        }
        match LISTED.iter().find(|(text, ..)| text.as_bytes() == line) {
            Some((_, address, word)) => assert_eq!(unlist(&line), (0, *address, *word)),
            None => {
                assert_eq!(unlist(&line), (12, 0, 0), "{}", String::from_utf8_lossy(&line));
                refused += 1;
            }
        }
    }
    assert_eq!(refused, 17);
    assert_eq!(LONGEST.len(), 31);
    assert_eq!(unlist(LONGEST.as_bytes()), (0, 0x7ffc, 0xffff_ff90));
}

#[test]
fn lines_that_no_file_lists() {
    let lines = [
        "",
        "refused 7",
        "refused 12",
        "00000000 00000000 data",
        "00000000 00000000 DATA",
        "00000004 00000000 DATA",
        "00000004 00000000 data ",
        "00000004 00000000 data 0",
        "00000004 00000023 LI 0\n",
        "00000004 00000023 LI 0\r",
        "00000004 00000023 LI 0 ",
        " 00000004 00000023 LI 0",
        "00000004  00000023 LI 0",
        "00000004 00000023  LI 0",
        "00000004 00000023 LI  0",
        "00000004 00000023 LI\t0",
        "00000004 00000023 LI -0",
        "00000004 00000023 LI +0",
        "00000004 00000023 LI 00",
        "00000004 00000123 LI 01",
        "00000004 00000123 LI +1",
        "00000004 00000123 LI -1",
        "00000004 00000123 LI 2",
        "00000004 00000123 LI",
        "00000004 00000123 LI ",
        "00000004 00000123 li 1",
        "00000004 00000123 LBI 1",
        "00000004 00000123 JMP 1",
        "00000004 ffffff23 LI 16777215",
        "00000004 FFFFFF23 LI -1",
        "0000000C 00000123 LI 1",
        "4 00000123 LI 1",
        "00000004 123 LI 1",
        "0x000004 00000123 LI 1",
        "00000005 00000123 LI 1",
        "00000006 00000123 LI 1",
        "00008000 00000123 LI 1",
        "80000000 00000123 LI 1",
        "fffffffc 00000123 LI 1",
        "00000004 fffffc03 JMP 4",
        "00000004 fffffc03 JMP -4",
        "00000004 fffffc03 JMP 00000000",
        "0000000c 80000003 JMP FF800010",
        "0000000c 80000003 JMP fff800010",
        "00000004 00000113 LLD 1",
        "00000004 000000ff",
        "00000004",
    ];
    for line in lines {
        assert_eq!(unlist(line.as_bytes()), (UNLISTED, 0, 0), "{line}");
    }
    assert_eq!(unlist("00000004 fffffc03 JMP 00000004".as_bytes()), (0, 4, 0xffff_fc03));
}

/// A file's listing comes back, word by word.
fn comes_back(file: &[u8]) -> usize {
    let lines = list(file);
    if lines[0].starts_with("refused") {
        return 0;
    }
    let mut body = file[HEADER..].to_vec();
    body.resize(body.len().next_multiple_of(4), 0);
    assert_eq!(lines.len(), body.len() / 4);
    for (nth, line) in lines.iter().enumerate() {
        let address = 4 * nth as u32;
        assert_eq!(unlist(line.as_bytes()), (0, address, get(&body, address, 4)), "{line}");
    }
    lines.len()
}

#[test]
fn listings_come_back() {
    let run: usize = (0..400).map(|number| comes_back(&random_file(11, number))).sum();
    assert!(run > 300_000, "{run}");
    let asked = (0..5000).map(|number| match random_call(11, number) {
        Call::Lines { file, .. } => comes_back(&file),
        _ => 0,
    });
    let asked: usize = asked.sum();
    assert!(asked > 50_000, "{asked}");
}

/// The shortest file in which the word stands at the address, as text or data.
fn witness(Listed { address, word, data }: Listed) -> Vec<u8> {
    let end = address as usize + 4;
    let mut body = vec![0; end];
    body[end - 4..].copy_from_slice(&word.to_le_bytes());
    executable(0, 0, if data { 4 } else { end as u32 }, &body)
}

/// Whether the witness lists this line there.
fn stands(line: &[u8], listed: Listed) -> bool {
    let listing = Listing::new(&witness(listed), None);
    let there = listing.line(u64::from(listed.address / 4));
    there.is_some_and(|there| there.as_bytes() == line)
}

/// Address and word in the columns that a listed line has them in, if an
/// accepted file can be as long as that.
fn columns(line: &[u8]) -> Option<(u32, u32)> {
    let number = |from: usize| {
        let digits = std::str::from_utf8(line.get(from..from + 8)?).ok()?;
        u32::from_str_radix(digits, 16).ok()
    };
    let (address, word) = (number(0)?, number(9)?);
    (address % 4 == 0 && address < 0x8000).then_some((address, word))
}

#[test]
fn exactly_those_pass_that_a_file_lists() {
    let rng = &mut Rng::new(12);
    let [mut listed, mut unlisted] = [0, 0];
    for _ in 0..30_000 {
        let (kind, line) = random_line(rng);
        let (answer, address, word) = unlist(&line);
        let text = String::from_utf8_lossy(&line).to_string();
        let by = |address, word| [false, true].map(|data| Listed { address, word, data });
        if answer == 0 {
            assert!(by(address, word).iter().any(|by| stands(&line, *by)), "{kind}: {text}");
            listed += 1;
        } else {
            assert_eq!((answer, address, word), (UNLISTED, 0, 0));
            let Some((address, word)) = columns(&line) else { continue };
            assert!(!by(address, word).iter().any(|by| stands(&line, *by)), "{kind}: {text}");
            unlisted += 1;
        }
    }
    assert!(listed > 8000 && unlisted > 8000, "{listed}, {unlisted}");
}

#[test]
fn data_by_its_place_from_4_on_by_its_opcode_anywhere() {
    for code in 0..=255u8 {
        let line = |address: u32| format!("{address:08x} 000001{code:02x} data");
        let passes = |address: u32| unlist(line(address).as_bytes()).0 == 0;
        assert_eq!(passes(0), !is_legal(code));
        assert!(passes(4) && passes(0x7ffc));
        assert!(!passes(0x8000) && !passes(2));
    }
}
