//! Numbers in bytes, most significant byte first, and fields one after another.

/// The number that up to eight bytes say.
pub fn number(bytes: &[u8]) -> u64 {
    bytes.iter().fold(0, |so_far, &byte| so_far << 8 | u64::from(byte))
}

/// The number that the first two of some bytes say.
pub fn short(bytes: &[u8]) -> u16 {
    bytes.iter().take(2).fold(0, |so_far, &byte| so_far << 8 | u16::from(byte))
}

/// Fields that are taken one after another from the front of some bytes. Each answers none where
/// too few bytes are left for it.
#[derive(Debug, Clone)]
pub struct Fields<'a> {
    left: &'a [u8],
}

impl<'a> Fields<'a> {
    /// All fields of the bytes.
    pub fn of(bytes: &'a [u8]) -> Fields<'a> {
        Fields { left: bytes }
    }

    /// The next bytes, so many of them.
    pub fn bytes(&mut self, count: usize) -> Option<&'a [u8]> {
        let (taken, left) = self.left.split_at_checked(count)?;
        self.left = left;
        Some(taken)
    }

    /// A number of one byte.
    pub fn byte(&mut self) -> Option<u8> {
        self.bytes(1)?.first().copied()
    }

    /// A number of two bytes.
    pub fn short(&mut self) -> Option<u16> {
        self.bytes(2).map(short)
    }

    /// A number of eight bytes.
    pub fn long(&mut self) -> Option<u64> {
        self.bytes(8).map(number)
    }

    /// A length of four bytes, and then so many bytes.
    pub fn counted_bytes(&mut self) -> Option<&'a [u8]> {
        let length = self.bytes(4).map(number)?;
        self.bytes(usize::try_from(length).ok()?)
    }

    /// So many numbers of two bytes each.
    pub fn shorts(&mut self, count: usize) -> Option<Vec<u16>> {
        let bytes = self.bytes(count.checked_mul(2)?)?;
        Some(bytes.chunks_exact(2).map(short).collect())
    }

    /// Everything that is left.
    pub fn rest(self) -> &'a [u8] {
        self.left
    }
}
