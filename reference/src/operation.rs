//! Operations (docs/RULES.md, "Operation" and "Method").

use crate::item::Item;

/// What an operation did.
#[derive(Debug, Clone, Copy, PartialEq, Eq, Hash)]
pub enum Method {
    Add(Item),
    Take(Item),
    FoundEmpty,
}

/// One completed call on the queue or stack under examination; times are in nanoseconds.
#[derive(Debug, Clone, Copy, PartialEq, Eq)]
pub struct Operation {
    pub method: Method,
    pub thread: u16,
    pub start: u64,
    pub end: u64,
}

impl Operation {
    /// Whether this operation had ended before the other one began.
    pub fn precedes(&self, other: &Operation) -> bool {
        self.end < other.start
    }
}
