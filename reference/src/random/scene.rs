//! A whole random case: memory, console, record, runs; or a file to load.

use super::doubles::extreme;
use super::keys::{bad_budget, budget, change_keys, key_list};
use super::program::{drill, handler, noise, story};
use super::record::{registers, stale_buffer};
use super::rng::Rng;
use super::space::{build, Space, HANDLER, PROGRAM};
use super::trim::trim;
use crate::case::{Case, RunInput, Runs};
use crate::opcodes::sets::code_of;
use crate::types::{Key, Registers, PAGE};
use crate::words::{self, instruction};

/// What a list of cases is for.
#[derive(Clone, Copy, PartialEq, Eq)]
pub enum Purpose {
    /// Any case: stale buffers, refusals and files to load too.
    Any,
    /// The comparison of the two machines: runs from an empty buffer.
    TwoMachines,
}

/// Case `number` of the list with this seed.
pub fn case(seed: u64, number: u64, purpose: Purpose) -> Case {
    let rng = &mut Rng::for_case(seed, number);
    if purpose == Purpose::Any && rng.percent(4) {
        return Case::Load(super::files::load_case(rng));
    }
    let mut runs = runs_case(rng, number, purpose);
    let refused = if purpose == Purpose::Any { 6 } else { 2 };
    if rng.percent(refused) {
        for _ in 0..1 + rng.below(2) {
            break_something(rng, &mut runs, purpose);
        }
    }
    trim(rng, &mut runs);
    runs.into()
}

/// The memory's frames: mostly four, so that bulk runs stay cheap; now and
/// then more, up to 2 MiB.
fn frames(rng: &mut Rng) -> u32 {
    if rng.below(400) == 0 {
        return rng.pick(&[17, 32, 64, 100, 128, 255, 256, 511, 512]);
    }
    rng.pick(&[1, 1, 2, 2, 3, 3, 3, 4, 4, 4, 4, 4, 4, 4, 4, 4, 4, 8, 8, 16])
}

fn runs_case(rng: &mut Rng, number: u64, purpose: Purpose) -> Runs {
    let frames = frames(rng);
    runs_case_of(rng, number, frames, purpose)
}

/// A case of runs with a memory of so many frames.
pub fn runs_case_of(rng: &mut Rng, number: u64, frames: u32, purpose: Purpose) -> Runs {
    let memory_size = PAGE * frames;
    let mut memory = vec![0; memory_size as usize];
    let paging = rng.percent(75);
    let space = if paging || rng.percent(50) {
        build(rng, &mut memory)
    } else {
        Space::unpaged(rng, memory_size)
    };
    let mode = rng.percent(50);
    put_program(rng, &space, &mut memory, number, mode);
    scatter(rng, &mut memory);
    let regs = registers(rng, &space, paging, mode);
    let mut case = Runs { memory, ..Runs::new(0, regs) };
    if purpose == Purpose::Any && rng.percent(25) {
        case.record.buffer = stale_buffer(rng, &space);
    }
    if paging && rng.percent(2) {
        put_many_walks(rng, &space, &mut case);
    }
    if mode && rng.percent(20) {
        put_extremes(rng, &space, &mut case);
    }
    case.console = vec![0; rng.pick(&[0, 1, 3, 16, 200])];
    put_console_and_keys(rng, &mut case);
    case
}

/// A first step of up to five walks: its fetch, two bytes, and where the second
/// faults, the slots of a frame over two pages.
fn put_many_walks(rng: &mut Rng, space: &Space, case: &mut Runs) {
    let stack = rng.pick(&space.pages).0.wrapping_mul(PAGE).wrapping_add(8);
    let regs = &mut case.record.regs;
    let (a, b) = (space.address(rng), space.address(rng));
    let (sp, ksp) = if regs.user { (regs.sp, stack) } else { (stack, regs.ksp) };
    *regs = Registers { a, b, c: 1, sp, ksp, iena: true, pc: space.code + PROGRAM, ..regs.clone() };
    // An interrupt would come in the instruction's place.
    (regs.key_pending, regs.timer_pending) = (false, false);
    let word = instruction(code_of(rng.pick(&["MCPY", "MCMP"])), 0);
    words::put(&mut case.memory, space.code_frame * PAGE + PROGRAM, 4, word);
}

/// A first step that operates on doubles of which something comes that is no usual
/// number.
fn put_extremes(rng: &mut Rng, space: &Space, case: &mut Runs) {
    let (f, g, name) = extreme(rng);
    let regs = &mut case.record.regs;
    *regs = Registers { f, g, pc: space.code + PROGRAM, ..regs.clone() };
    (regs.key_pending, regs.timer_pending) = (false, false);
    let word = instruction(code_of(name), 0);
    words::put(&mut case.memory, space.code_frame * PAGE + PROGRAM, 4, word);
}

/// The program and its trap handler, in the space's frame for them.
pub fn put_program(rng: &mut Rng, space: &Space, memory: &mut [u8], number: u64, mode: bool) {
    let length = rng.pick(&[6, 20, 60, 200]);
    let mut program = match rng.weighted(&[5, 14, 1]) {
        0 => drill(rng, space, mode, (number as u8).wrapping_mul(37), length),
        1 => story(rng, space, mode, length),
        _ => noise(rng, length),
    };
    if rng.percent(70) {
        // Back to the start, so that the run doesn't end here.
        let back = -4 * (program.len() as i32 + 1);
        program.push(instruction(code_of("JMP"), back as u32));
    }
    let handler = handler(rng, space, mode);
    let frame = space.code_frame * PAGE;
    for (start, list) in [(PROGRAM, program), (HANDLER, handler)] {
        for (nth, word) in list.iter().enumerate() {
            words::put(memory, frame + start + 4 * nth as u32, 4, *word);
        }
    }
}

/// A few bytes here and there, so that loads find something.
pub fn scatter(rng: &mut Rng, memory: &mut [u8]) {
    for _ in 0..rng.below(24) {
        let at = rng.below(memory.len() as u32) as usize;
        if memory[at] == 0 {
            memory[at] = rng.word() as u8;
        }
    }
}

fn put_console_and_keys(rng: &mut Rng, case: &mut Runs) {
    let length = case.console.len() as u32;
    for byte in &mut case.console {
        *byte = rng.pick(&[0, 0, 0x41, 0xff]);
    }
    case.record.regs.written =
        u64::from(if rng.percent(20) { length } else { rng.below(length + 1) });
    let keys = key_list(rng, case.record.regs.count);
    if rng.percent(20) {
        case.record.regs.keys = u64::from(rng.below(keys.len() as u32 + 1));
    }
    let single_steps = rng.percent(15);
    for _ in 0..1 + rng.below(if single_steps { 24 } else { 5 }) {
        let budget = if single_steps { 1 } else { budget(rng) };
        let mut keys = keys.clone();
        if rng.percent(4) {
            change_keys(rng, &mut keys);
        }
        case.runs.push(RunInput { keys, budget });
    }
}

/// Breaks one thing a run is refused for.
pub fn break_something(rng: &mut Rng, case: &mut Runs, purpose: Purpose) {
    let length = case.memory.len();
    let buffer_too = purpose == Purpose::Any;
    let regs = &mut case.record.regs;
    match rng.weighted(&[2, 2, 2, 1, 2, 3, 3, 2, 2, if buffer_too { 6 } else { 0 }]) {
        0 => case.memory.resize(rng.pick(&[0, 1, 4095, 4097, length.saturating_sub(1)]), 0),
        1 => regs.pc |= 1 + rng.below(3),
        2 => regs.ivec |= 1 + rng.below(3),
        3 => regs.count = rng.pick(&[1 << 63, (1 << 63) + 1, u64::MAX]),
        4 => {
            let bits = 1 + rng.below(7);
            let stack = rng.below(3);
            *[&mut regs.sp, &mut regs.usp, &mut regs.ksp][stack as usize] |= bits;
        }
        5 => regs.pdir = rng.pick(&[regs.pdir | 4, length as u32, 0xffff_f000]),
        6 => break_keys(rng, case),
        7 => regs.written = case.console.len() as u64 + u64::from(1 + rng.below(3)),
        8 => {
            for run in &mut case.runs {
                run.budget = bad_budget(rng);
            }
        }
        _ => break_buffer(rng, case),
    }
}

/// A list that falls, or fewer keys than were taken.
fn break_keys(rng: &mut Rng, case: &mut Runs) {
    let (falling, taken) = (rng.percent(60), rng.percent(30));
    for run in &mut case.runs {
        if falling {
            let last = run.keys.last().map_or(0, |key| key.step);
            run.keys.push(Key { step: last.saturating_add(2), byte: 1 });
            run.keys.push(Key { step: last.saturating_add(1), byte: 2 });
            if taken {
                case.record.regs.keys = run.keys.len() as u64;
            }
        } else {
            let length = run.keys.len() as u64;
            case.record.regs.keys = rng.pick(&[length + 1, length + 9, u64::MAX]);
        }
    }
}

fn break_buffer(rng: &mut Rng, case: &mut Runs) {
    let frames = (case.memory.len() / PAGE as usize) as u32;
    let buffer = &mut case.record.buffer;
    if buffer.count == 0 {
        buffer.count = 2;
        buffer.slots[1].page = 1;
    }
    let at = rng.below(buffer.count.min(64)) as usize;
    match rng.below(4) {
        0 => buffer.count = rng.pick(&[65, 66, 255, u32::MAX]),
        1 => buffer.slots[at].page = rng.pick(&[1 << 20, u32::MAX]),
        2 => buffer.slots[at].frame = rng.pick(&[frames, u32::MAX]),
        _ => buffer.slots[at].page = buffer.slots[(at + 1) % buffer.count as usize % 64].page,
    }
}
