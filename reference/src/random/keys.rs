//! Key lists that rise and repeat, and budgets; falling lists are among the
//! refusals of `scene.rs`.

use super::rng::Rng;
use crate::types::{Key, MAX_BUDGET};

/// A list whose numbers start about the record's count and rise or repeat.
pub fn key_list(rng: &mut Rng, count: u64) -> Vec<Key> {
    let length = match rng.weighted(&[5, 4, 1]) {
        0 => 0,
        1 => rng.below(4),
        _ => rng.below(20),
    };
    let mut step = if rng.percent(80) { count } else { 0 };
    let mut list = Vec::new();
    for _ in 0..length {
        step = step.saturating_add(rng.pick(&[0, 0, 1, 1, 2, 5, 17]));
        let byte = rng.pick(&[0, 13, 65, 0x7f, 0x80, 0xff]);
        list.push(Key { step, byte });
    }
    if rng.percent(5) {
        list.push(Key { step: rng.pick(&[1 << 32, 1 << 63, u64::MAX]).max(step), byte: 7 });
    }
    list
}

/// Another list than the other runs have: longer, shorter, or other bytes.
pub fn change_keys(rng: &mut Rng, list: &mut Vec<Key>) {
    let last = list.last().map_or(0, |key| key.step);
    match rng.below(3) {
        0 => list.push(Key { step: last, byte: 1 }),
        1 => {
            list.pop();
        }
        _ => list.iter_mut().for_each(|key| key.byte ^= 1),
    }
}

/// A budget that passes: 0, 1, few steps, or many.
pub fn budget(rng: &mut Rng) -> u64 {
    u64::from(match rng.weighted(&[1, 5, 5, 8, 6, 3]) {
        0 => 0,
        1 => 1,
        2 => 1 + rng.below(4),
        3 => 1 + rng.below(60),
        4 => 1 + rng.below(700),
        _ => 1 + rng.below(3000),
    })
}

/// A budget that is refused, at the edge or far beyond.
pub fn bad_budget(rng: &mut Rng) -> u64 {
    rng.pick(&[MAX_BUDGET + 1, MAX_BUDGET + 2, 1 << 32, u64::MAX])
}
