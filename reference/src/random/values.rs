//! Numbers at the edges: 0, 1, -1, 2^31, M, page ends.

use super::rng::Rng;
use crate::types::PAGE;

/// A 32-bit number, mostly at an edge.
pub fn number(rng: &mut Rng, memory_size: u32) -> u32 {
    match rng.weighted(&[4, 2, 2, 1]) {
        0 => edge(rng, memory_size),
        1 => rng.below(256),
        2 => edge(rng, memory_size).wrapping_add(rng.between(-9, 9) as u32),
        _ => rng.word(),
    }
}

fn edge(rng: &mut Rng, memory_size: u32) -> u32 {
    let edges = [
        0,
        1,
        2,
        31,
        32,
        33,
        0x7f,
        0x80,
        0xff,
        0x7fff,
        0x8000,
        0x7f_ffff,
        0x80_0000,
        0x7fff_ffff,
        0x8000_0000,
        0x8000_0001,
        0xffff_fff9,
        0xffff_fffe,
        0xffff_ffff,
        memory_size,
        memory_size.wrapping_sub(1),
        memory_size.wrapping_sub(4),
        PAGE - 1,
        PAGE,
    ];
    rng.pick(&edges)
}

/// An offset in a page, often at its ends.
pub fn offset(rng: &mut Rng) -> u32 {
    match rng.weighted(&[3, 2, 5]) {
        0 => rng.pick(&[0, 1, 2, 3, 4, 8, 0xff0, 0xff8, 0xffc, 0xffd, 0xffe, 0xfff]),
        1 => 4 * rng.below(32),
        _ => rng.below(PAGE),
    }
}

/// A step count: fresh, small, or where 32 and 63 bits end.
pub fn step_count(rng: &mut Rng) -> u64 {
    match rng.weighted(&[6, 3, 1, 1]) {
        0 => 0,
        1 => u64::from(rng.below(1000)),
        2 => (1 << 32) - u64::from(rng.below(20)),
        _ => (1 << 63) - 1 - u64::from(rng.below(20)),
    }
}
