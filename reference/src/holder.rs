//! Holders: the calls of a strict object and their refusals (docs/HOLDERS.md).

use crate::giving::GivingList;
use crate::kind::Kind;
use crate::refusal::Fault;

/// The largest code.
pub const LARGEST_CODE: u16 = 1023;

/// The most codes that can be added between two clears.
pub const MOST_ADDS: usize = 1024;

/// A strict object: its giving list, and how many codes were added since it was cleared.
#[derive(Debug, Clone)]
pub struct Holder {
    list: GivingList,
    adds: usize,
}

impl Holder {
    /// An empty holder of that kind.
    pub fn new(kind: Kind) -> Holder {
        Holder { list: GivingList::new(kind), adds: 0 }
    }

    /// How many codes are held.
    pub fn count(&self) -> usize {
        self.list.count()
    }

    /// Where a code stands, or 43.
    pub fn rank(&self, code: u16) -> Result<usize, Fault> {
        self.list.place_of(code).ok_or(Fault::CodeNotHeld)
    }

    /// The code at a place, or 44.
    pub fn at(&self, place: usize) -> Result<u16, Fault> {
        self.list.codes().get(place).copied().ok_or(Fault::NoSuchPlace)
    }

    /// Takes every code out and counts adds from 0 again.
    pub fn clear(&mut self) {
        self.list.clear();
        self.adds = 0;
    }

    /// Puts a code in at its seat, or refuses by 40, 41 or 42.
    pub fn add(&mut self, code: u16) -> Result<(), Fault> {
        if code > LARGEST_CODE {
            return Err(Fault::CodeTooLarge);
        }
        if self.list.holds(code) {
            return Err(Fault::AlreadyHeld);
        }
        if self.adds >= MOST_ADDS {
            return Err(Fault::AddsUsedUp);
        }
        self.list.add(code);
        self.adds += 1;
        Ok(())
    }

    /// Takes a code out, or refuses by 43.
    pub fn take(&mut self, code: u16) -> Result<(), Fault> {
        let place = self.rank(code)?;
        self.list.remove(place);
        Ok(())
    }
}
