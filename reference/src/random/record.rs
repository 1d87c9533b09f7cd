//! Random records for a given address space.

use super::doubles::double;
use super::rng::Rng;
use super::space::{Space, HANDLER, PROGRAM, STACK_TOP};
use super::values::{number, step_count};
use crate::types::{Buffer, Cause, Entry, Registers, Stop, CAPACITY, NO_KEY, PAGE};

pub fn registers(rng: &mut Rng, space: &Space, paging: bool, mode: bool) -> Registers {
    let [a, b] = [0; 2].map(|_| {
        if rng.percent(50) {
            space.address(rng)
        } else {
            number(rng, space.memory_size)
        }
    });
    let c = if rng.percent(80) { rng.below(5) } else { number(rng, space.memory_size) };
    let near = space.code + PROGRAM;
    let (timer, timeout) = timer(rng);
    Registers {
        a,
        b,
        c,
        sp: stack(rng, space),
        usp: stack(rng, space),
        ksp: stack(rng, space),
        pc: if rng.percent(96) { near } else { space.address(rng) & !3 },
        ivec: if rng.percent(90) { space.code + HANDLER } else { space.address(rng) & !3 },
        pdir: space.pdir,
        vadr: number(rng, space.memory_size),
        timer,
        timeout,
        kbchar: rng.pick(&[NO_KEY, NO_KEY, 0, 65, 255, 0x1234_5678]),
        user: rng.percent(40),
        iena: rng.percent(65),
        paging,
        waiting: rng.percent(3),
        stop: if rng.percent(2) { rng.pick(&Stop::ALL) } else { Stop::Running },
        count: step_count(rng),
        keys: 0,
        written: 0,
        key_pending: rng.percent(15),
        timer_pending: rng.percent(15),
        cause: rng.pick(&Cause::ALL),
        mode,
        f: double(rng),
        g: double(rng),
    }
}

/// A stack pointer: mostly in its page, at times at an edge or where a frame
/// or push would hit a table word.
fn stack(rng: &mut Rng, space: &Space) -> u32 {
    let sp = match rng.weighted(&[20, 2, 2, 2, 1]) {
        0 => space.stack + STACK_TOP - 8 * rng.below(8),
        1 => rng.pick(&[0, 8, 16, 24, PAGE, PAGE + 8, space.memory_size, 0xffff_fff8]),
        2 => space.view(rng).unwrap_or(0).wrapping_add(rng.pick(&[0, 8, 16, 20])),
        3 => space.address(rng),
        // What is popped or stored here lies on both sides of a page's end.
        _ => rng.pick(&space.pages).0.wrapping_mul(PAGE).wrapping_add(rng.pick(&[0xff8, 8, 0])),
    };
    sp & !7
}

fn timer(rng: &mut Rng) -> (u32, u32) {
    match rng.weighted(&[12, 6, 2]) {
        0 => (rng.below(3), 0),
        1 => (rng.below(30), 1 + rng.below(40)),
        _ => (rng.pick(&[0, 5, u32::MAX - 1, u32::MAX]), rng.pick(&[1, u32::MAX - 1, u32::MAX])),
    }
}

/// A buffer the tables know nothing of, at times full or nearly so.
pub fn stale_buffer(rng: &mut Rng, space: &Space) -> Buffer {
    let mut buffer = Buffer::default();
    let frames = space.memory_size / PAGE;
    let length = match rng.weighted(&[3, 1, 2]) {
        0 => rng.below(9),
        1 => rng.below(CAPACITY as u32 + 1),
        _ => rng.pick(&[62, 63, 64]),
    };
    while buffer.count < length {
        let page = if rng.percent(30) { rng.pick(&space.pages).0 } else { rng.below(1 << 20) };
        if buffer.position(page).is_none() {
            // The program's own page keeps its frame, or little would run.
            let own = page == space.code / PAGE;
            let frame = if own { space.code_frame } else { rng.below(frames) };
            let (user, write) = (own || rng.percent(60), rng.percent(60));
            buffer.slots[buffer.count as usize] = Entry { page, frame, user, write, origin: None };
            buffer.count += 1;
        }
    }
    // A slot past the count means nothing, whatever it holds.
    if let Some(slot) = buffer.slots.get_mut(length as usize) {
        *slot = Entry { page: rng.word(), frame: rng.word(), ..Entry::default() };
    }
    buffer
}
