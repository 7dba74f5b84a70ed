//! Case `D`: calls on a docket.

use crate::bytes::Fields;
use crate::docket::{Buffers, Docket};
use crate::hash::Hash;
use crate::item::ItemType;
use crate::kind::Kind;
use crate::refusal::Refusal;
use crate::sheet::{Sheet, MOST_OPERATIONS};
use crate::trace::read;

/// `D`: a docket, opened on the operations of a trace, and the calls on it.
pub fn called(body: &[u8]) -> Option<String> {
    let mut fields = Fields::of(body);
    let kind = Kind::of_case(fields.byte()?);
    let k = fields.short()?;
    let trace = fields.counted_bytes()?;
    let mut sheet = Sheet::over(MOST_OPERATIONS);
    if let Err(refusal) = read(trace, ItemType::of_trace(trace), &mut sheet) {
        return Some(format!("docket unread {refusal}"));
    }
    let mut docket = Docket::open(&sheet, kind, k);
    let mut line = "docket ".to_string();
    while let Some(answer) = call(&mut docket, &mut fields) {
        line += &answer;
        line += "; ";
    }
    let held = docket.held();
    let mut hash = Hash::new();
    held.iter().for_each(|code| hash.tell(&code.to_be_bytes()));
    Some(format!("{line}held {} {}", held.len(), hash.value()))
}

/// The answer to the next call; none where there is no further whole call.
fn call(docket: &mut Docket, fields: &mut Fields) -> Option<String> {
    match fields.byte()? {
        0 => Some(placed(docket, fields.short()?)),
        1 => {
            let count = usize::from(fields.short()?);
            Some(ran(docket, &fields.shorts(count)?))
        }
        2 => Some(lifted(docket)),
        3 => {
            let mut length = || fields.short().map(usize::from);
            Some(certified(docket, Buffers::new(length()?, length()?, length()?)))
        }
        _ => None,
    }
}

/// The answer to a place.
fn placed(docket: &mut Docket, number: u16) -> String {
    match docket.place(number) {
        Ok(rank) => format!("placed {rank}"),
        Err(refusal) => refusal.to_string(),
    }
}

/// The answer to a run.
fn ran(docket: &mut Docket, order: &[u16]) -> String {
    let (count, refusal) = docket.run(order);
    let (number, place, detail) = match refusal {
        None => (0, 0, 0),
        Some(Refusal { fault, place, detail }) => (fault.number(), place, detail),
    };
    format!("ran {count} stopped {number} {place} {detail}")
}

/// The answer to a lift.
fn lifted(docket: &mut Docket) -> String {
    match docket.lift() {
        Ok(number) => format!("lifted {number}"),
        Err(refusal) => refusal.to_string(),
    }
}

/// The answer to a certify, with the hash of the buffers as it left them.
fn certified(docket: &Docket, mut buffers: Buffers) -> String {
    let answer = match docket.certify(&mut buffers) {
        Ok(it) => format!("certified {} {} {}", it.total, it.largest, it.step),
        Err(refusal) => refusal.to_string(),
    };
    let mut hash = Hash::new();
    buffers.ranks.iter().for_each(|rank| hash.tell(&rank.to_be_bytes()));
    buffers.instants.iter().for_each(|instant| hash.tell(&instant.to_be_bytes()));
    buffers.lateness.iter().for_each(|lateness| hash.tell(&lateness.to_be_bytes()));
    format!("{answer} {}", hash.value())
}
