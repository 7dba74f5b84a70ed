//! The items of a history, and the numbers of a case `I`.

use super::random::Random;
use crate::item::{Item, ItemType, Lane};

/// How the items of one history are numbered: different indexes are different items.
#[derive(Debug, Clone, Copy)]
pub struct Naming {
    item_type: ItemType,
    first: u32,
    stride: u32,
    /// How many lanes share the counts; from 65 on a serial takes part too; 0 for serials alone.
    lanes: usize,
}

impl Naming {
    /// Some numbering of items of the type.
    pub fn draw(random: &mut Random, item_type: ItemType) -> Naming {
        let near_the_top = u32::MAX - random.below(4) as u32;
        let anywhere = random.word() as u32;
        let odd = random.word() as u32 | 1;
        Naming {
            item_type,
            first: random.pick(&[0, 1, near_the_top, anywhere]),
            stride: random.pick(&[1, 1, odd]),
            lanes: random.pick(&[0, 1, 2, 64, 65]),
        }
    }

    /// The item of an index.
    pub fn item(&self, index: usize) -> Item {
        if self.item_type == ItemType::Ticket {
            return Item::Ticket(self.numbered(index));
        }
        let rest = self.numbered(index.checked_div(self.lanes).unwrap_or(index));
        let lane = index.checked_rem(self.lanes).and_then(|lane| u8::try_from(lane).ok());
        match lane.map(Lane::try_from) {
            Some(Ok(lane)) => Item::Counted(lane, rest),
            _ => Item::Serial(rest),
        }
    }

    /// The number of 32 bits for an index.
    fn numbered(&self, index: usize) -> u32 {
        self.first.wrapping_add((index as u32).wrapping_mul(self.stride))
    }
}

/// A number around those at which something changes.
fn edge(random: &mut Random) -> u64 {
    let bit = random.pick(&[1, 6, 7, 8, 31, 32, 33, 37, 38, 39, 40, 41, 63]);
    let off = random.below_word(4);
    (1_u64 << bit) - 2 + off
}

/// A number with the fields of a stamp, or with some bits beside them.
fn stamp_like(random: &mut Random) -> u64 {
    let case = random.pick(&[0, 0, 1, 1, 1, 2, 3, 4]);
    let lane = random.pick(&[0, 0, 1, 62, 63]);
    let count = random.pick(&[0, 5, u64::from(u32::MAX), 1 << 31]);
    (case << 38) + (lane << 32) + count
}

/// The body of a case `I`.
pub fn number(random: &mut Random) -> Vec<u8> {
    let what = match random.below(30) {
        0 => random.byte(),
        1 => 3,
        draw => (draw % 3) as u8,
    };
    let number = match random.below(10) {
        0..=2 => edge(random),
        3..=5 => stamp_like(random),
        6 => random.pick(&[0, 62, 63, 64, 65, 127, 128, 255, 256, 319, 320]),
        7 => random.word() >> random.below(64),
        8 => random.word() << random.below(64),
        _ => u64::MAX - random.below_word(3),
    };
    let mut body = vec![what];
    body.extend(number.to_be_bytes());
    if random.chance(4) {
        let more = 1 + random.below(4);
        body.extend(random.bytes(more));
    }
    body
}
