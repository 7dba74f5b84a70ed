//! Files of cases: a letter, a length of four bytes, and the body.

use crate::bytes::Fields;

/// One small experiment.
#[derive(Debug, Clone, Copy, PartialEq, Eq)]
pub struct Case<'a> {
    pub letter: u8,
    pub body: &'a [u8],
}

/// The cases of a file, one after another. A file that ends within a case ends before it.
#[derive(Debug, Clone)]
pub struct Cases<'a> {
    fields: Fields<'a>,
}

impl<'a> Cases<'a> {
    /// The cases of the file that has these bytes.
    pub fn of(file: &'a [u8]) -> Cases<'a> {
        Cases { fields: Fields::of(file) }
    }
}

impl<'a> Iterator for Cases<'a> {
    type Item = Case<'a>;

    fn next(&mut self) -> Option<Case<'a>> {
        let mut fields = self.fields.clone();
        let case = Case { letter: fields.byte()?, body: fields.counted_bytes()? };
        self.fields = fields;
        Some(case)
    }
}
