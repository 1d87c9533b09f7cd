//! Executables for the run program, whose machine has 32,768 bytes, a fresh
//! record and no keys. What a case of runs is given in its record, a program
//! here sets by its own instructions before it begins.

use super::files::{damage, file_for};
use super::program::Writer;
use super::record::registers;
use super::rng::Rng;
use super::scene::{put_program, scatter};
use super::space::{build, Space};
use crate::line::{CONSOLE, MEMORY};
use crate::load::{executable, HEADER};
use crate::opcodes::decode::Reg;
use crate::types::{Registers, PAGE};
use crate::words;

/// Where a program sets the machine up, in its page: between the program and
/// its handler.
const SETUP: u32 = 0x900;
/// No body is longer; the run program reads less than a tenth of that.
const LONGEST: u32 = 400_000;

/// Executable `number` of the list with this seed.
pub fn random_file(seed: u64, number: u64) -> Vec<u8> {
    let rng = &mut Rng::for_case(seed, number);
    match rng.weighted(&[10, 5, 2, 4, 4]) {
        0 => whole_program(rng, number),
        1 => file_for(rng, MEMORY),
        2 => console_program(rng),
        3 => wrong_fields(rng),
        _ => long_file(rng, number),
    }
}

/// A memory with a program in it, and the address to begin at.
struct Image {
    memory: Vec<u8>,
    entry: u32,
}

/// A program with its handler, stacks and page tables.
fn image(rng: &mut Rng, number: u64) -> Image {
    let mut memory = vec![0; MEMORY];
    let paging = rng.percent(70);
    let space = if paging || rng.percent(30) {
        build(rng, &mut memory)
    } else {
        Space::unpaged(rng, MEMORY as u32)
    };
    put_program(rng, &space, &mut memory, number, false);
    scatter(rng, &mut memory);
    let regs = registers(rng, &space, paging, false);
    let entry = space.code_frame * PAGE + SETUP;
    for (nth, word) in setup(rng, &space, &regs).iter().enumerate() {
        words::put(&mut memory, entry + 4 * nth as u32, 4, *word);
    }
    Image { memory, entry }
}

/// Leads from the fresh record to one like `regs`, and to the program.
fn setup(rng: &mut Rng, space: &Space, regs: &Registers) -> Vec<u32> {
    let mut writer = Writer::new(rng, space, false);
    let set = [("SUSP", regs.usp), ("SSP", regs.ksp), ("IVEC", regs.ivec), ("TIME", regs.timeout)];
    for (name, value) in set {
        writer.constant(Reg::A, value);
        writer.op(name, 0);
    }
    if regs.paging {
        writer.constant(Reg::A, regs.pdir);
        writer.op("PDIR", 0);
        writer.op("LI", 1);
        writer.op("SPAG", 0);
    }
    writer.constant(Reg::C, regs.c);
    writer.constant(Reg::B, regs.b);
    writer.constant(Reg::A, regs.a);
    enter(&mut writer, regs);
    writer.words
}

/// Into user mode as from a trap, or on in kernel mode. sp is M so far; RTI
/// leaves the stack that it returns from in ksp.
fn enter(writer: &mut Writer, regs: &Registers) {
    let to_stack = |sp: u32| sp.wrapping_sub(MEMORY as u32) as i32;
    if regs.user {
        writer.op("ENT", to_stack(regs.ksp));
        writer.op("PSHI", regs.pc as i32);
        writer.op("PSHI", 16);
        writer.op("RTI", 0);
        return;
    }
    if regs.iena {
        writer.op("STI", 0);
    }
    writer.op("ENT", to_stack(regs.sp));
    let next = writer.space.code + SETUP + 4 * (writer.words.len() as u32 + 1);
    writer.op("JMP", regs.pc.wrapping_sub(next) as i32);
}

/// An image as a file whose body is cut or filled to `length` bytes.
fn packed(rng: &mut Rng, mut image: Image, length: usize) -> Vec<u8> {
    let filler = rng.word() as u8;
    image.memory.resize(length, filler);
    let least = image.entry + 4;
    let spare = (length as u32).saturating_sub(least);
    let between = least + rng.below(spare + 1);
    let data_start = rng.pick(&[least, between, least + spare]);
    executable(rng.word(), image.entry, data_start, &image.memory)
}

/// A body that ends at its last byte, or is as long as memory.
fn whole_program(rng: &mut Rng, number: u64) -> Vec<u8> {
    let image = image(rng, number);
    let used = image.memory.iter().rposition(|byte| *byte != 0).map_or(0, |last| last + 1);
    let used = used.max(image.entry as usize + 4);
    let length = rng.pick(&[used, used, used, MEMORY]);
    packed(rng, image, length)
}

/// A body at the edge of memory, or beyond it, up to far more than is read.
fn long_file(rng: &mut Rng, number: u64) -> Vec<u8> {
    let image = image(rng, number);
    let length = match rng.weighted(&[3, 1, 2]) {
        0 => MEMORY.saturating_add_signed(rng.between(-3, 20) as isize),
        1 => 65_536usize.saturating_add_signed(rng.between(-20, 20) as isize),
        _ => (MEMORY as u32 + rng.below(LONGEST - MEMORY as u32)) as usize,
    };
    let mut file = packed(rng, image, length);
    if rng.percent(40) {
        damage(rng, &mut file, length as u32);
    }
    file
}

/// Writes bytes to the console, often about as many as it holds, and halts.
/// b is then the sum of what BOUT gave.
fn console_program(rng: &mut Rng) -> Vec<u8> {
    let console = CONSOLE as u32;
    let about = console.wrapping_add(rng.between(-2, 2) as u32);
    let random = 1 + rng.below(3 * console);
    let count = rng.pick(&[1, 5, about, about, random]);
    let space = Space::unpaged(rng, MEMORY as u32);
    let mut writer = Writer::new(rng, &space, false);
    writer.op("PSHI", 0);
    writer.constant(Reg::C, count);
    let again = writer.words.len();
    let round = ["LBL", "BOUT", "ADDL", "SL", "PSHC", "POPA"];
    round.iter().for_each(|name| writer.op(name, 0));
    writer.op("ADDI", -1);
    writer.op("LCA", 0);
    let back = 4 * (writer.words.len() + 1 - again) as i32;
    writer.op("BNZ", -back);
    writer.op("LBL", 0);
    writer.op("HALT", 0);
    let body: Vec<u8> = writer.words.iter().flat_map(|word| word.to_le_bytes()).collect();
    executable(0, 0, body.len() as u32, &body)
}

/// Each field of the header wrong or not, whatever the others are, so that
/// the order of the refusals shows.
fn wrong_fields(rng: &mut Rng) -> Vec<u8> {
    let fitting = 4 + rng.below(160);
    let unfit = MEMORY as u32 + 1 + rng.below(20);
    let body = if rng.percent(40) { rng.pick(&[0, unfit]) } else { fitting };
    let start = if rng.percent(40) {
        let near = body + rng.below(9);
        rng.pick(&[body + 1, near, u32::MAX])
    } else {
        rng.below(body + 1)
    };
    let entry = if rng.percent(40) {
        let below = rng.between(-1, 7) as u32;
        rng.pick(&[start.wrapping_sub(below), start & !3, !3, u32::MAX, 1])
    } else {
        start.saturating_sub(4) & !3
    };
    let bytes: Vec<u8> = (0..body).map(|_| rng.word() as u8).collect();
    let mut file = executable(rng.word(), entry, start, &bytes);
    if rng.percent(40) {
        file[rng.below(4) as usize] ^= 1 << rng.below(8);
    }
    if rng.percent(20) {
        file.truncate(rng.below(HEADER as u32 + 2) as usize);
    }
    file
}
