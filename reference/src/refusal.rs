//! Refusals: what was wrong, where, and with what detail (docs/REFUSALS.md).

use std::fmt;

/// What was wrong. The value of each is its number in docs/REFUSALS.md.
#[derive(Debug, Clone, Copy, PartialEq, Eq)]
pub enum Fault {
    Short = 1,
    Version = 2,
    Kind = 3,
    ItemType = 4,
    FrameSpareBit = 5,
    Count = 6,
    Length = 7,
    NoSuchMethod = 10,
    RecordSpareBit = 11,
    OutsideType = 12,
    ItemOnFoundEmpty = 13,
    Full = 20,
    EndBeforeStart = 21,
    AddedAlready = 22,
    TakenAlready = 23,
    NoSuchOperation = 31,
    PlacedAlready = 32,
    TooEarly = 33,
    NotHeld = 34,
    AboveBound = 35,
    NothingToLift = 36,
    StepsMissing = 37,
    BufferTooShort = 38,
    CodeTooLarge = 40,
    AlreadyHeld = 41,
    AddsUsedUp = 42,
    CodeNotHeld = 43,
    NoSuchPlace = 44,
    Memory = 51,
    OrderLength = 52,
}

impl Fault {
    /// The number by which the fault is known.
    pub fn number(self) -> u8 {
        self as u8
    }

    /// The layer that refuses, as it is printed.
    pub fn layer(self) -> &'static str {
        match self.number() {
            12 => "item",
            10..=13 => "record",
            20..=23 => "sheet",
            31..=38 => "docket",
            40..=44 => "holder",
            _ => "frame",
        }
    }
}

/// One refusal. Its place is a record, a step, or 0 where neither is meant.
#[derive(Debug, Clone, Copy, PartialEq, Eq)]
pub struct Refusal {
    pub fault: Fault,
    pub place: usize,
    pub detail: usize,
}

impl Refusal {
    /// A refusal with place 0 and detail 0.
    pub fn of(fault: Fault) -> Refusal {
        Refusal::at(fault, 0)
    }

    /// A refusal with a place, and detail 0.
    pub fn at(fault: Fault, place: usize) -> Refusal {
        Refusal { fault, place, detail: 0 }
    }

    /// The same refusal with a detail.
    pub fn with(self, detail: usize) -> Refusal {
        Refusal { detail, ..self }
    }
}

impl fmt::Display for Refusal {
    fn fmt(&self, out: &mut fmt::Formatter<'_>) -> fmt::Result {
        let (layer, number) = (self.fault.layer(), self.fault.number());
        write!(out, "refused {layer} {number} place {} detail {}", self.place, self.detail)
    }
}
