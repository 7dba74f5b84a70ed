//! Traces: reading and writing them (docs/TRACE.md).

use crate::bytes::short;
use crate::item::ItemType;
use crate::kind::Kind;
use crate::record::{decode, encode, Record, RECORD_BYTES};
use crate::refusal::{Fault, Refusal};
use crate::sheet::{Sheet, MOST_OPERATIONS};

/// How many bytes a header has.
pub const HEADER_BYTES: usize = 8;

/// How many bytes a trace of so many operations has.
pub const fn trace_bytes(operations: usize) -> usize {
    HEADER_BYTES + (RECORD_BYTES + 2) * operations
}

/// What an accepted header says.
#[derive(Debug, Clone, Copy, PartialEq, Eq)]
struct Header {
    kind: Kind,
    k: u16,
    count: usize,
}

/// What an accepted trace says besides its operations, which are on the sheet.
#[derive(Debug, Clone, PartialEq, Eq)]
pub struct Reading {
    pub kind: Kind,
    pub k: u16,
    pub order: Vec<u16>,
}

/// The header of a trace, or the first refusal of 1 to 7.
fn read_header(trace: &[u8], item_type: ItemType) -> Result<Header, Refusal> {
    let refused = |fault| Err(Refusal::of(fault));
    let Some(header) = trace.first_chunk::<HEADER_BYTES>() else {
        return refused(Fault::Short);
    };
    if header[0] >> 4 != 1 {
        return refused(Fault::Version);
    }
    let Some(kind) = Kind::of_trace(header[0] & 0x0f) else {
        return refused(Fault::Kind);
    };
    if header[1] >> 4 != item_type.number() {
        return refused(Fault::ItemType);
    }
    if header[1] & 0x0f != 0 || short(&header[6..8]) != 0 {
        return refused(Fault::FrameSpareBit);
    }
    let count = usize::from(short(&header[2..4]));
    if count > MOST_OPERATIONS {
        return refused(Fault::Count);
    }
    if trace.len() != trace_bytes(count) {
        return refused(Fault::Length);
    }
    Ok(Header { kind, k: short(&header[4..6]), count })
}

/// Reads a trace onto the sheet. A refused header leaves the sheet as it was; a refused record
/// leaves the operations of the earlier records on it.
pub fn read(trace: &[u8], item_type: ItemType, sheet: &mut Sheet) -> Result<Reading, Refusal> {
    let header = read_header(trace, item_type)?;
    let (records, order) = trace[HEADER_BYTES..].split_at(RECORD_BYTES * header.count);
    sheet.empty();
    for (place, bytes) in records.chunks_exact(RECORD_BYTES).enumerate() {
        let mut record: Record = [0; RECORD_BYTES];
        record.copy_from_slice(bytes);
        sheet.enter(decode(&record, item_type, place)?)?;
    }
    let order = order.chunks_exact(2).map(short).collect();
    Ok(Reading { kind: header.kind, k: header.k, order })
}

/// What is to be written of a trace besides the operations. The kind is a plain number, since a
/// kind above 2 can be asked for, and is refused.
#[derive(Debug, Clone, Copy)]
pub struct Writing<'a> {
    pub item_type: ItemType,
    pub kind: u8,
    pub k: u16,
    pub order: &'a [u16],
}

/// Writes the operations of the sheet over the front of the memory, or refuses by 3, 52 or 51 and
/// leaves the memory as it was.
pub fn write(sheet: &Sheet, writing: Writing, memory: &mut [u8]) -> Result<(), Refusal> {
    let operations = sheet.operations();
    let Some(kind) = Kind::of_trace(writing.kind) else {
        return Err(Refusal::of(Fault::Kind));
    };
    if writing.order.len() != operations.len() {
        return Err(Refusal::of(Fault::OrderLength));
    }
    let Some(target) = memory.get_mut(..trace_bytes(operations.len())) else {
        return Err(Refusal::of(Fault::Memory));
    };
    let mut trace = vec![0x10 | kind.number(), writing.item_type.number() << 4];
    // A sheet has at most 1,024 operations, so that its count has 16 bits.
    trace.extend((operations.len() as u16).to_be_bytes());
    trace.extend(writing.k.to_be_bytes());
    trace.extend([0, 0]);
    trace.extend(operations.iter().flat_map(encode));
    trace.extend(writing.order.iter().flat_map(|step| step.to_be_bytes()));
    target.copy_from_slice(&trace);
    Ok(())
}
