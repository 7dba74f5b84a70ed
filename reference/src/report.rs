//! The text that `examine` prints of a trace (docs/TRACE.md, "What `examine` prints").

use std::fmt::{self, Write};

use crate::docket::{Buffers, Docket};
use crate::item::ItemType;
use crate::operation::Method;
use crate::refusal::Refusal;
use crate::sheet::{Sheet, MOST_OPERATIONS};
use crate::trace::{read, trace_bytes};

/// The most bytes of its input that `examine` reads: one more than the longest trace has.
pub const MOST_INPUT: usize = trace_bytes(MOST_OPERATIONS) + 1;

/// What is printed of a trace, and whether a certificate was granted.
#[derive(Debug, Clone, PartialEq, Eq)]
pub struct Report {
    pub text: String,
    pub certified: bool,
}

/// Examines a trace.
pub fn examine(trace: &[u8]) -> Report {
    match certify(trace) {
        Ok(text) => Report { text, certified: true },
        Err(refusal) => Report { text: format!("{refusal}\n"), certified: false },
    }
}

/// The lines of an accepted trace whose order is certified, or the refusal of either.
fn certify(trace: &[u8]) -> Result<String, Refusal> {
    let mut sheet = Sheet::over(MOST_OPERATIONS);
    let reading = read(trace, ItemType::of_trace(trace), &mut sheet)?;
    let mut docket = Docket::open(&sheet, reading.kind, reading.k);
    if let (_, Some(refusal)) = docket.run(&reading.order) {
        return Err(refusal);
    }
    let count = sheet.operations().len();
    let mut buffers = Buffers::new(count, count, count);
    let certificate = docket.certify(&mut buffers)?;
    let mut text = String::new();
    // Nothing that writes to a string fails.
    let _ = write_steps(&mut text, &docket, &buffers);
    let _ = write_latenesses(&mut text, &sheet, &buffers);
    let (total, largest, step) = (certificate.total, certificate.largest, certificate.step);
    let _ = writeln!(text, "certified k {} total {total} max {largest} step {step}", reading.k);
    Ok(text)
}

/// One line for each step.
fn write_steps(text: &mut String, docket: &Docket, buffers: &Buffers) -> fmt::Result {
    let costs = buffers.ranks.iter().zip(&buffers.instants);
    for (place, (number, (rank, instant))) in docket.steps().zip(costs).enumerate() {
        writeln!(text, "step {place} op {number} rank {rank} at {instant}")?;
    }
    Ok(())
}

/// One line for each add.
fn write_latenesses(text: &mut String, sheet: &Sheet, buffers: &Buffers) -> fmt::Result {
    let operations = sheet.operations().iter().zip(&buffers.lateness);
    for (number, (operation, lateness)) in operations.enumerate() {
        if matches!(operation.method, Method::Add(_)) {
            writeln!(text, "late {number} {lateness}")?;
        }
    }
    Ok(())
}
