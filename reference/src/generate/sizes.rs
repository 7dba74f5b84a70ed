//! How many operations, bytes or entries: mostly few, sometimes as many as there can be.

use super::random::Random;
use crate::sheet::MOST_OPERATIONS;

/// A number of operations. So many of a thousand are full or nearly so.
pub fn operations(random: &mut Random, full: usize) -> usize {
    match random.below(1000) {
        draw if draw < full => {
            let missing = if random.chance(60) { 0 } else { random.below(30) };
            MOST_OPERATIONS - missing
        }
        draw if draw < full + 50 => random.below(300),
        draw if draw < full + 220 => random.below(120),
        draw if draw < full + 560 => random.below(30),
        _ => random.below(9),
    }
}

/// A length beside one that would do: exactly it, one less or more, none, or many more.
pub fn beside(random: &mut Random, exact: usize) -> usize {
    match random.below(20) {
        0..=8 => exact,
        9..=11 => exact.saturating_sub(1),
        12..=13 => exact + 1,
        14 => 0,
        15 => random.below(exact + 1),
        16..=18 => exact + random.below(60),
        _ => exact + random.below(3000),
    }
}

/// A place in a list that is not empty: the first, the last, a late one, or any.
pub fn place(random: &mut Random, length: usize) -> usize {
    let last = length.saturating_sub(1);
    match random.below(6) {
        0 => 0,
        1 => last,
        2 | 3 => last - random.below(length.min(8)).min(last),
        _ => random.below(length),
    }
}
