//! Orders that are nearly true, and the bounds that they need.

use super::history::History;
use super::random::Random;
use super::sizes::place;
use crate::docket::Docket;
use crate::kind::Kind;
use crate::sheet::Sheet;

/// Brings an order out of its turn, more often near its end, or leaves it as it is.
pub fn disturb(random: &mut Random, order: &mut Vec<u16>) {
    let length = order.len();
    if length < 2 || random.chance(45) {
        return;
    }
    let near = place(random, length);
    let far = place(random, length);
    match random.below(12) {
        0..=2 => swap_neighbours(random, order),
        3 | 4 => order.swap(near, far),
        5 | 6 => {
            let moved = order.remove(near);
            order.insert(near.saturating_sub(1 + random.below(10)), moved);
        }
        7 => order[near] = order[far],
        8 => order[near] = length as u16,
        9 => order[near] = random.pick(&[1023, 1024, 1025, 32768, 65535]),
        10 => order[near.min(far)..=near.max(far)].reverse(),
        _ => random.shuffle(order),
    }
}

/// Exchanges some steps with the next ones.
fn swap_neighbours(random: &mut Random, order: &mut [u16]) {
    for _ in 0..1 + random.below(4) {
        let left = place(random, order.len() - 1);
        order.swap(left, left + 1);
    }
}

/// The history's operations on a sheet.
pub fn sheet_of(history: &History) -> Sheet {
    let mut sheet = Sheet::over(history.operations.len());
    for &operation in &history.operations {
        // A history has no operation that a sheet refuses.
        let _ = sheet.enter(operation);
    }
    sheet
}

/// The largest rank error that comes up until the first refusal for another reason.
pub fn needed(sheet: &Sheet, kind: Kind, order: &[u16]) -> u16 {
    let mut docket = Docket::open(sheet, kind, u16::MAX);
    let ranks = order.iter().map_while(|&number| docket.place(number).ok());
    // No rank error is above 1,024.
    ranks.max().unwrap_or(0) as u16
}

/// A bound for an order that needs the given one: exactly it, one below, none, or others.
pub fn bound(random: &mut Random, needed: u16) -> u16 {
    match random.below(20) {
        0..=8 => needed,
        9..=12 => needed.saturating_sub(1),
        13 | 14 => 0,
        15 => needed.saturating_add(1 + random.below(5) as u16),
        16 => random.below(usize::from(needed) + 1) as u16,
        17 => u16::MAX,
        _ => random.short() >> random.below(16),
    }
}
