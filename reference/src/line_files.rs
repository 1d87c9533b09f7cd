//! Executables for the run program's line, and lists of them: each refusal,
//! each stop reason, the edges of lengths and budget, the examples. Refusal 1
//! is not among them: it depends on M alone, and the run program's M is 32,768.
//! What must come of each stands in `tests/line_files.rs`.

use crate::load::executable;
use crate::worked::op;

/// An executable and the name the tests call it by.
pub type NamedFile = (&'static str, Vec<u8>);

/// All of them, in the order of the list.
pub fn files() -> Vec<NamedFile> {
    [short(), magic(), body(), data_start(), entry(), stops(), edges(), numbers(), examples()]
        .concat()
}

/// A list's bytes: each file with its length in front, four bytes.
pub fn write(files: &[NamedFile]) -> Vec<u8> {
    let with_length =
        |(_, file): &NamedFile| [&(file.len() as u32).to_le_bytes(), &file[..]].concat();
    files.iter().flat_map(with_length).collect()
}

/// The files of a list, which ends with the input or at a file that is cut off.
pub fn read(mut bytes: &[u8]) -> Vec<&[u8]> {
    let mut files = Vec::new();
    while let Some((length, rest)) = bytes.split_first_chunk() {
        let Some((file, after)) = rest.split_at_checked(u32::from_le_bytes(*length) as usize)
        else {
            break;
        };
        files.push(file);
        bytes = after;
    }
    files
}

/// The stored list: all files, and the beginning of one more.
pub fn stored() -> Vec<u8> {
    let cut = write(&[("cut off", halt())]);
    [&write(&files())[..], &cut[..cut.len() - 1]].concat()
}

fn bytes(words: &[u32]) -> Vec<u8> {
    words.iter().flat_map(|word| word.to_le_bytes()).collect()
}

/// A program at address 0, all of it code.
fn program(words: &[u32]) -> Vec<u8> {
    executable(0, 0, 4 * words.len() as u32, &bytes(words))
}

/// The shortest that is accepted.
fn halt() -> Vec<u8> {
    program(&[op("HALT", 0)])
}

/// The same with a wrong magic.
fn wrong(mut file: Vec<u8>) -> Vec<u8> {
    file[0] ^= 1;
    file
}

/// A file of this length, its body full of NOPs.
fn long(length: usize) -> Vec<u8> {
    executable(0, 0, 4, &vec![0x9b; length - 16])
}

fn short() -> Vec<NamedFile> {
    vec![
        ("empty", Vec::new()),
        ("1 byte", vec![0x0d]),
        ("15 bytes", halt()[..15].to_vec()),
        ("15 bytes, 7 before 8", wrong(halt())[..15].to_vec()),
    ]
}

fn magic() -> Vec<NamedFile> {
    let mut reversed = halt();
    reversed[..4].reverse();
    let mut last_byte = halt();
    last_byte[3] = 0;
    vec![
        ("magic, a low bit", wrong(halt())),
        ("magic, its last byte", last_byte),
        ("magic, the highest byte first", reversed),
        ("20 zeros", vec![0; 20]),
        ("8 before 9, empty body", wrong(executable(0, 0, 0, &[]))),
        ("8 before 9, body too long", wrong(long(40_000))),
        ("8 before 10", wrong(executable(0, 0, 5, &[0; 4]))),
        ("8 before 11", wrong(executable(0, 2, 4, &[0; 4]))),
    ]
}

/// The longest body is as long as M: a file of 32,784 bytes.
fn body() -> Vec<NamedFile> {
    vec![
        ("16 bytes", executable(0, 0, 0, &[])),
        ("9 before 10", executable(0, 0, 1, &[])),
        ("9 before 11", executable(0, 2, 0, &[])),
        ("body of M and 1", long(32_785)),
        ("body of M and 2", long(32_786)),
        ("100,000 bytes", long(100_000)),
        ("accepted after a long one", halt()),
    ]
}

fn data_start() -> Vec<NamedFile> {
    vec![
        ("17 bytes, data start 2", executable(0, 0, 2, &[0])),
        ("data start above the body", executable(0, 0, 5, &[0; 4])),
        ("data start 2^32 - 1", executable(0, 0, u32::MAX, &[0; 4])),
        ("10 before 11, entry 2", executable(0, 2, 5, &[0; 4])),
        ("10 before 11, entry 8", executable(0, 8, 5, &[0; 4])),
        ("data start 5 in a body of 7", executable(0, 0, 5, &[0; 7])),
    ]
}

fn entry() -> Vec<NamedFile> {
    let second = bytes(&[op("HALT", 0), op("LI", 7), op("HALT", 0)]);
    vec![
        ("17 bytes, data start 1", executable(0, 0, 1, &[0])),
        ("entry 1", executable(0, 1, 8, &[0; 8])),
        ("entry 2", executable(0, 2, 8, &[0; 8])),
        ("entry 4, data start 4", executable(0, 4, 4, &[0; 8])),
        ("entry 4, data start 7", executable(0, 4, 7, &[0; 8])),
        ("entry 2^32 - 4", executable(0, 0xffff_fffc, 8, &[0; 8])),
        ("entry 4", executable(0, 4, 12, &second)),
    ]
}

fn stops() -> Vec<NamedFile> {
    vec![
        ("running: IDLE, no key", program(&[op("STI", 0), op("IDLE", 0)])),
        ("halted", halt()),
        ("masked: TRAP", program(&[op("LI", 5), op("TRAP", 0)])),
        ("masked: opcode 0xff", program(&[op("NOP", 0), 0xff])),
        ("masked: a read at M", program(&[op("LI", 0x8000), op("LX", 0)])),
        ("masked: division by 0", program(&[op("LI", 6), op("DIVI", 0)])),
        ("no frame: the first slot", program(&[op("ENT", 8), op("STI", 0), op("TRAP", 0)])),
        ("no frame: the second slot", program(&[op("ENT", -32_760), op("STI", 0), op("TRAP", 0)])),
    ]
}

/// Counts a down in 2n steps.
fn countdown(n: i32) -> [u32; 4] {
    [op("LI", n), op("SUBI", 1), op("BNZ", -8), op("HALT", 0)]
}

/// Writes n bytes to the console; c is what the last BOUT gives.
#[rustfmt::skip]
fn print(n: i32) -> Vec<u8> {
    program(&[
        op("LI", n), op("SL", -8),
        op("BOUT", 0), op("LCA", 0), op("LL", -8), op("SUBI", 1), op("SL", -8), op("BNZ", -24),
        op("HALT", 0),
    ])
}

fn edges() -> Vec<NamedFile> {
    let one_more = [&[op("NOP", 0)][..], &countdown(49_999)].concat();
    let mut whole = vec![0; 32_760];
    whole.extend(bytes(&[op("LI", 5), op("HALT", 0)]));
    vec![
        ("100,000 steps", program(&countdown(49_999))),
        ("100,001 steps", program(&one_more)),
        ("4,096 console bytes", print(4_096)),
        ("4,097 console bytes", print(4_097)),
        ("no key", program(&[op("BIN", 0), op("HALT", 0)])),
        ("M", program(&[op("MSIZ", 0), op("HALT", 0)])),
        ("body of M", executable(0, 32_760, 32_768, &whole)),
        ("zeros after the body", program(&[op("NOP", 0)])),
        ("bss", executable(u32::MAX, 0, 4, &[0; 4])),
    ]
}

#[rustfmt::skip]
fn numbers() -> Vec<NamedFile> {
    let longest = [op("LI", -1), op("LBI", -1), op("LCA", 0), op("ENT", -32_776), op("JMP", -24)];
    let zeros = [op("LI", 100), op("LCA", 0), op("LI", 1_000_000), op("LBI", 10), op("HALT", 0)];
    vec![
        ("the longest numbers", program(&longest)),
        ("zeros in numbers", program(&zeros)),
    ]
}

fn examples() -> Vec<NamedFile> {
    vec![
        ("rate.v9", include_bytes!("../../examples/rate.v9").to_vec()),
        ("console.v9", include_bytes!("../../examples/console.v9").to_vec()),
        ("paging.v9", include_bytes!("../../examples/paging.v9").to_vec()),
        ("trap.v9", include_bytes!("../../examples/trap.v9").to_vec()),
        ("feed.v9", include_bytes!("../../examples/feed.v9").to_vec()),
        ("ticks.v9", include_bytes!("../../examples/ticks.v9").to_vec()),
        ("panel.v9", include_bytes!("../../examples/panel.v9").to_vec()),
        ("recipe.v9", include_bytes!("../../examples/recipe.v9").to_vec()),
        ("endless.v9", include_bytes!("../../examples/endless.v9").to_vec()),
        ("ration.v9", include_bytes!("../../examples/ration.v9").to_vec()),
        ("refused.v9", include_bytes!("../../examples/refused.v9").to_vec()),
    ]
}
