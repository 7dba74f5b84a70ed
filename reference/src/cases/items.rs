//! Case `I`: items and lanes by their numbers.

use crate::bytes::Fields;
use crate::item::{Item, ItemType, Lane};

/// `I`: a number, made an item or a lane, and told again.
pub fn named(body: &[u8]) -> Option<String> {
    let mut fields = Fields::of(body);
    let (what, number) = (fields.byte()?, fields.long()?);
    let answer = match what {
        0 => ItemType::Ticket.unpack(number).map(Item::pack),
        1 => ItemType::Stamp.unpack(number).map(Item::pack),
        2 => Lane::try_from(number.to_be_bytes()[7]).map(|lane| u64::from(lane.number())),
        _ => return None,
    };
    Some(match answer {
        Ok(number) => format!("item {number}"),
        Err(refusal) => format!("item {refusal}"),
    })
}
