//! Records: the 24 bytes of one operation, both ways (docs/TRACE.md, "Record").

use crate::bytes::{number, short};
use crate::item::ItemType;
use crate::operation::{Method, Operation};
use crate::refusal::{Fault, Refusal};

/// How many bytes a record has.
pub const RECORD_BYTES: usize = 24;

/// The bytes of a record.
pub type Record = [u8; RECORD_BYTES];

/// The operation that a record says, or refusal 10, 11, 12 or 13 with the record's place.
pub fn decode(record: &Record, item_type: ItemType, place: usize) -> Result<Operation, Refusal> {
    let refused = |fault| Err(Refusal::at(fault, place));
    let method = record[0] >> 6;
    let field = number(&record[1..6]);
    if method == 3 {
        return refused(Fault::NoSuchMethod);
    }
    if record[0] & 0x3f != 0 {
        return refused(Fault::RecordSpareBit);
    }
    if method == 2 && field != 0 {
        return refused(Fault::ItemOnFoundEmpty);
    }
    let item = || item_type.unpack(field).map_err(|refusal| Refusal { place, ..refusal });
    Ok(Operation {
        method: match method {
            0 => Method::Add(item()?),
            1 => Method::Take(item()?),
            _ => Method::FoundEmpty,
        },
        thread: short(&record[6..8]),
        start: number(&record[8..16]),
        end: number(&record[16..24]),
    })
}

/// The record of an operation.
pub fn encode(operation: &Operation) -> Record {
    let (method, field) = match operation.method {
        Method::Add(item) => (0, item.pack()),
        Method::Take(item) => (1, item.pack()),
        Method::FoundEmpty => (2, 0),
    };
    let mut record = [0; RECORD_BYTES];
    record[0] = method << 6;
    record[1..6].copy_from_slice(&field.to_be_bytes()[3..]);
    record[6..8].copy_from_slice(&operation.thread.to_be_bytes());
    record[8..16].copy_from_slice(&operation.start.to_be_bytes());
    record[16..24].copy_from_slice(&operation.end.to_be_bytes());
    record
}
