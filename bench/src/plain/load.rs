//! Loading an executable.

use super::refusal::bad_size;
use super::Machine;

/// The answer's number, and the machine over the memory: fresh, or all zero where the load is refused.
pub fn load(file: &[u8], memory: Vec<u8>) -> (u32, Machine) {
    let size = memory.len();
    let mut machine = Machine::zero(memory, Vec::new());
    let answer = answer(file, size);
    if answer == 0 {
        let body = &file[16..];
        machine.memory[..body.len()].copy_from_slice(body);
        machine.memory[body.len()..].fill(0);
        machine.pc = word(file, 8);
        machine.sp = size as u32;
        machine.kbchar = !0;
    }
    (answer, machine)
}

fn answer(file: &[u8], size: usize) -> u32 {
    if bad_size(size) {
        return 1;
    }
    if file.len() < 16 {
        return 7;
    }
    let (entry, data, body) = (word(file, 8), word(file, 12), file.len() - 16);
    if word(file, 0) != 0xC0DEF00D {
        8
    } else if body == 0 || body > size {
        9
    } else if data as usize > body {
        10
    } else if entry % 4 != 0 || entry as u64 + 4 > data as u64 {
        11
    } else {
        0
    }
}

fn word(file: &[u8], at: usize) -> u32 {
    u32::from_le_bytes(file[at..at + 4].try_into().unwrap())
}
