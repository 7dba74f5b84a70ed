//! Items, and their item numbers (docs/RULES.md, "Item and item number").

use crate::refusal::{Fault, Refusal};

/// A type of items; the trace says which by a number from 0 to 15, of which two are used.
#[derive(Debug, Clone, Copy, PartialEq, Eq)]
pub enum ItemType {
    Ticket,
    Stamp,
}

/// A number from 0 to 63.
#[derive(Debug, Clone, Copy, PartialEq, Eq, Hash)]
pub struct Lane(u8);

/// What goes through the queue or stack.
#[derive(Debug, Clone, Copy, PartialEq, Eq, Hash)]
pub enum Item {
    /// A ticket, by its number.
    Ticket(u32),
    /// A stamp that is a serial.
    Serial(u32),
    /// A stamp that is a lane with a count.
    Counted(Lane, u32),
}

impl ItemType {
    /// The type of a trace's items as `examine` chooses it: 1 in the upper half of byte 1 means
    /// stamps, everything else tickets.
    pub fn of_trace(bytes: &[u8]) -> ItemType {
        match bytes.get(1) {
            Some(byte) if byte >> 4 == 1 => ItemType::Stamp,
            _ => ItemType::Ticket,
        }
    }

    /// The type's own number.
    pub fn number(self) -> u8 {
        match self {
            ItemType::Ticket => 0,
            ItemType::Stamp => 1,
        }
    }

    /// The item of this type that has the item number, or refusal 12 with place 0.
    pub fn unpack(self, number: u64) -> Result<Item, Refusal> {
        let item = match self {
            ItemType::Ticket => u32::try_from(number).ok().map(Item::Ticket),
            ItemType::Stamp => stamp(number),
        };
        item.ok_or(Refusal::of(Fault::OutsideType))
    }
}

/// The stamp with the item number, if there is one.
fn stamp(number: u64) -> Option<Item> {
    let rest = (number & 0xffff_ffff) as u32;
    let lane = (number >> 32 & 0x3f) as u8;
    match number >> 38 {
        0 if lane == 0 => Some(Item::Serial(rest)),
        1 => Some(Item::Counted(Lane(lane), rest)),
        _ => None,
    }
}

impl Lane {
    /// The lane's number.
    pub fn number(self) -> u8 {
        self.0
    }
}

impl TryFrom<u8> for Lane {
    type Error = Refusal;

    fn try_from(number: u8) -> Result<Lane, Refusal> {
        if number > 63 {
            return Err(Refusal::of(Fault::OutsideType));
        }
        Ok(Lane(number))
    }
}

impl Item {
    /// The item number.
    pub fn pack(self) -> u64 {
        match self {
            Item::Ticket(number) => u64::from(number),
            Item::Serial(serial) => u64::from(serial),
            Item::Counted(lane, count) => (1 << 38) + (u64::from(lane.0) << 32) + u64::from(count),
        }
    }
}
