//! The sheet: the operations of one history, and the pairing (docs/RULES.md).

use std::collections::HashMap;

use crate::operation::{Method, Operation};
use crate::refusal::{Fault, Refusal};

/// The most operations that any sheet or trace has.
pub const MOST_OPERATIONS: usize = 1024;

/// The operations of one history, under the numbers by which they were entered.
#[derive(Debug, Clone)]
pub struct Sheet {
    room: usize,
    operations: Vec<Operation>,
    /// The operation that added, and the one that took, each item.
    numbers: HashMap<Method, usize>,
}

impl Sheet {
    /// An empty sheet over a memory of so many records.
    pub fn over(records: usize) -> Sheet {
        let room = records.min(MOST_OPERATIONS);
        Sheet { room, operations: Vec::new(), numbers: HashMap::new() }
    }

    /// The operations entered, by their numbers.
    pub fn operations(&self) -> &[Operation] {
        &self.operations
    }

    /// Takes every operation off the sheet.
    pub fn empty(&mut self) {
        self.operations.clear();
        self.numbers.clear();
    }

    /// Enters an operation and answers its number, or refuses by 20, 21, 22 or 23.
    pub fn enter(&mut self, operation: Operation) -> Result<usize, Refusal> {
        let number = self.operations.len();
        if number >= self.room {
            return Err(Refusal::at(Fault::Full, number));
        }
        if operation.end < operation.start {
            return Err(Refusal::at(Fault::EndBeforeStart, number));
        }
        let fault = match operation.method {
            Method::Add(_) => Some(Fault::AddedAlready),
            Method::Take(_) => Some(Fault::TakenAlready),
            Method::FoundEmpty => None,
        };
        if let Some(fault) = fault {
            if let Some(&earlier) = self.numbers.get(&operation.method) {
                return Err(Refusal::at(fault, number).with(earlier));
            }
            self.numbers.insert(operation.method, number);
        }
        self.operations.push(operation);
        Ok(number)
    }

    /// The add that an operation belongs to: that of its item, for a take, where there is one.
    pub fn add_of(&self, operation: &Operation) -> Option<usize> {
        match operation.method {
            Method::Take(item) => self.numbers.get(&Method::Add(item)).copied(),
            Method::Add(_) | Method::FoundEmpty => None,
        }
    }
}
