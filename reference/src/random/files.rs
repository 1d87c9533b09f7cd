//! Executables, good and damaged, for `load`.

use super::program::story;
use super::rng::Rng;
use super::space::Space;
use crate::case::{Load, MAX_CASE};
use crate::load::executable;

const MEMORY: [usize; 9] = [0, 1, 4095, 4096, 4096, 8192, 8192, 12_288, 16_384];
/// Now and then.
const LARGE: [usize; 4] = [69_632, 1_048_576, 2_093_056, 2_097_152];

/// A file to load into a memory that passes or doesn't.
pub fn load_case(rng: &mut Rng) -> Load {
    let memory_length = if rng.percent(1) { rng.pick(&LARGE) } else { rng.pick(&MEMORY) };
    let file = file_for(rng, memory_length);
    Load { memory_length, fill: rng.pick(&[0, 0x55, 0xff]), file }
}

/// A file: most pass, the others are damaged in one or two places.
pub fn file_for(rng: &mut Rng, memory_length: usize) -> Vec<u8> {
    let body = body(rng, memory_length);
    let data_start = rng.below(body.len() as u32 + 1);
    let entry = if data_start < 4 { 0 } else { 4 * rng.below(data_start / 4) };
    let mut file = executable(rng.word(), entry, data_start, &body);
    for _ in 0..rng.pick(&[0, 0, 0, 1, 1, 2]) {
        damage(rng, &mut file, body.len() as u32);
    }
    file
}

fn body(rng: &mut Rng, memory_length: usize) -> Vec<u8> {
    let length = match rng.weighted(&[6, 2, 1]) {
        0 => 4 + rng.below(200) as usize,
        1 if memory_length < MAX_CASE / 2 => {
            memory_length.saturating_add_signed(rng.between(-5, 5) as isize)
        }
        _ => rng.below(4) as usize,
    };
    let space = Space::unpaged(rng, 4096);
    let mut bytes: Vec<u8> =
        story(rng, &space, false, 8).iter().flat_map(|word| word.to_le_bytes()).collect();
    bytes.resize(length, 0x9b);
    bytes
}

/// Damages the header or the end of a file with so many bytes of body.
pub fn damage(rng: &mut Rng, file: &mut Vec<u8>, body: u32) {
    let word = |value: u32| value.to_le_bytes();
    let header = file.len() >= 16;
    match rng.below(5) {
        0 => {
            let length = rng.pick(&[0, 4, 15, 16, 17, 19]);
            file.truncate(length);
        }
        1 if header => file[rng.below(4) as usize] ^= 1 << rng.below(8),
        2 if header => {
            let near = body.wrapping_add(rng.between(-2, 2) as u32);
            let start = rng.pick(&[0, 3, 4, near, body + 1, u32::MAX]);
            file[12..16].copy_from_slice(&word(start));
        }
        3 if header => {
            let entry = rng.pick(&[1, 2, 4, body, body & !3, !3, u32::MAX]);
            file[8..12].copy_from_slice(&word(entry));
        }
        _ => file.push(rng.word() as u8),
    }
}
