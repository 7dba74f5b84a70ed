//! The giving list and the seat rules (docs/HOLDERS.md).

use crate::kind::Kind;

/// The codes that are held, in the order in which the strict object would give them.
#[derive(Debug, Clone)]
pub struct GivingList {
    kind: Kind,
    codes: Vec<u16>,
}

impl GivingList {
    /// An empty list of that kind.
    pub fn new(kind: Kind) -> GivingList {
        GivingList { kind, codes: Vec::new() }
    }

    /// The codes, first one first.
    pub fn codes(&self) -> &[u16] {
        &self.codes
    }

    /// How many codes are held.
    pub fn count(&self) -> usize {
        self.codes.len()
    }

    /// Where a code stands, if it is held.
    pub fn place_of(&self, code: u16) -> Option<usize> {
        self.codes.iter().position(|&held| held == code)
    }

    /// Whether a code is held.
    pub fn holds(&self, code: u16) -> bool {
        self.codes.contains(&code)
    }

    /// Puts a code in at its seat: a stack's is the front, a queue's the end.
    pub fn add(&mut self, code: u16) {
        match self.kind {
            Kind::Stack => self.codes.insert(0, code),
            Kind::Queue | Kind::CountingQueue => self.codes.push(code),
        }
    }

    /// Takes out the code at a place, if there is one.
    pub fn remove(&mut self, place: usize) {
        if place < self.codes.len() {
            self.codes.remove(place);
        }
    }

    /// Puts a code back to a place from which it was taken.
    pub fn put_back(&mut self, code: u16, place: usize) {
        self.codes.insert(place.min(self.codes.len()), code);
    }

    /// Takes every code out.
    pub fn clear(&mut self) {
        self.codes.clear();
    }
}
