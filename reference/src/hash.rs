//! The hash that stands in the answers to cases (docs/COMPARISON.md).

/// A hash of 64 bits, of all bytes that were told so far.
#[derive(Debug, Clone, Copy)]
pub struct Hash(u64);

impl Hash {
    /// The hash of no bytes.
    pub fn new() -> Hash {
        Hash(14_695_981_039_346_656_037)
    }

    /// The hash of some bytes.
    pub fn of(bytes: &[u8]) -> u64 {
        let mut hash = Hash::new();
        hash.tell(bytes);
        hash.value()
    }

    /// Goes on with some more bytes.
    pub fn tell(&mut self, bytes: &[u8]) {
        for &byte in bytes {
            self.0 = (self.0 ^ u64::from(byte)).wrapping_mul(1_099_511_628_211);
        }
    }

    /// The hash as a number.
    pub fn value(self) -> u64 {
        self.0
    }
}

impl Default for Hash {
    fn default() -> Hash {
        Hash::new()
    }
}
