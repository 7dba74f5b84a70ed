//! Kinds: which strict object a history is measured against (docs/RULES.md, "Kind").

/// The strict object that the relaxed one stands in for.
#[derive(Debug, Clone, Copy, PartialEq, Eq)]
pub enum Kind {
    Queue,
    Stack,
    CountingQueue,
}

impl Kind {
    /// The kind that a trace's number means; none above 2.
    pub fn of_trace(number: u8) -> Option<Kind> {
        match number {
            0 => Some(Kind::Queue),
            1 => Some(Kind::Stack),
            2 => Some(Kind::CountingQueue),
            _ => None,
        }
    }

    /// The kind that a case's byte means: 0 and 1 as in a trace, every other the queue by counting.
    pub fn of_case(byte: u8) -> Kind {
        Kind::of_trace(byte).unwrap_or(Kind::CountingQueue)
    }

    /// The number of the kind in a trace.
    pub fn number(self) -> u8 {
        match self {
            Kind::Queue => 0,
            Kind::Stack => 1,
            Kind::CountingQueue => 2,
        }
    }
}
