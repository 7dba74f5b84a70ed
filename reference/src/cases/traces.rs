//! Cases `T`, `R` and `W`: a trace examined, two traces read, and a trace's operations written.

use crate::bytes::Fields;
use crate::hash::Hash;
use crate::item::ItemType;
use crate::record::encode;
use crate::report::examine;
use crate::sheet::{Sheet, MOST_OPERATIONS};
use crate::trace::{read, write, Writing};

/// `T`: what `examine` prints of the trace.
pub fn examined(trace: &[u8]) -> String {
    let text = examine(trace).text;
    let last = text.lines().next_back().unwrap_or_default();
    format!("trace {} {} {last}", text.len(), Hash::of(text.as_bytes()))
}

/// `R`: two traces, read one after the other onto the same sheet.
pub fn read_twice(body: &[u8]) -> Option<String> {
    let mut fields = Fields::of(body);
    let mut sheet = Sheet::over(usize::from(fields.short()?));
    let first = fields.counted_bytes()?;
    let second = fields.rest();
    let item_type = ItemType::of_trace(first);
    let one = reading(first, item_type, &mut sheet);
    let other = reading(second, item_type, &mut sheet);
    Some(format!("read {one}; {other}"))
}

/// What is told of one reading: its answer, and what is on the sheet then.
fn reading(trace: &[u8], item_type: ItemType, sheet: &mut Sheet) -> String {
    let answer = match read(trace, item_type, sheet) {
        Ok(reading) => format!("accepted kind {} k {}", reading.kind.number(), reading.k),
        Err(refusal) => refusal.to_string(),
    };
    let mut hash = Hash::new();
    for operation in sheet.operations() {
        hash.tell(&encode(operation));
    }
    format!("{answer} entered {} {}", sheet.operations().len(), hash.value())
}

/// `W`: the operations of a trace, written with another kind, k and order.
pub fn written(body: &[u8]) -> Option<String> {
    let mut fields = Fields::of(body);
    let (kind, k) = (fields.byte()?, fields.short()?);
    let mut memory = vec![0xa5; usize::from(fields.short()?)];
    let count = usize::from(fields.short()?);
    let order = fields.shorts(count)?;
    let trace = fields.rest();

    let item_type = ItemType::of_trace(trace);
    let mut sheet = Sheet::over(MOST_OPERATIONS);
    if let Err(refusal) = read(trace, item_type, &mut sheet) {
        return Some(format!("write unread {refusal}"));
    }
    let answer = match write(&sheet, Writing { item_type, kind, k, order: &order }, &mut memory) {
        Ok(()) => "done".to_string(),
        Err(refusal) => refusal.to_string(),
    };
    Some(format!("write {answer} {}", Hash::of(&memory)))
}
