//! Fields: 8 bytes each, read in order as a number or a name, and the limits
//! that a field is judged by (refusals CUT, COUNT, NAME, NUMBER).

use crate::refusal::{Refusal, COUNT, CUT, NAME, NUMBER};

/// The bound on numbers for which document 01 lists no values.
pub const SIZE: i128 = 1 << 40;

/// A place in a sheet from which fields are read one after another.
pub struct Reader<'a> {
    bytes: &'a [u8],
    pub at: usize,
}

/// One field and the byte offset at which it stands.
#[derive(Clone, Copy)]
pub struct Field {
    pub at: usize,
    pub bytes: [u8; 8],
}

impl<'a> Reader<'a> {
    pub fn new(bytes: &'a [u8]) -> Reader<'a> {
        Reader { bytes, at: 0 }
    }

    /// The next field, or CUT at its offset if fewer than 8 bytes remain.
    pub fn field(&mut self) -> Result<Field, Refusal> {
        let at = self.at;
        let mut bytes = [0u8; 8];
        match self.bytes.get(at..at + 8) {
            Some(part) => bytes.copy_from_slice(part),
            None => return Err(Refusal::at(CUT, at)),
        }
        self.at = at + 8;
        Ok(Field { at, bytes })
    }

    /// The next field as a count within limits.
    pub fn count(&mut self, least: i128, most: i128) -> Result<usize, Refusal> {
        let field = self.field()?;
        field.within(least, most, COUNT).map(|n| n as usize)
    }

    /// The next field as a number of listed values.
    pub fn listed(&mut self, least: i128, most: i128) -> Result<i128, Refusal> {
        self.field()?.within(least, most, NUMBER)
    }

    /// The next field as a number without listed values: at most 2^40 in size.
    pub fn sized(&mut self) -> Result<i128, Refusal> {
        self.field()?.within(-SIZE, SIZE, NUMBER)
    }
}

impl Field {
    /// The field as a two's complement number, least byte first.
    pub fn number(&self) -> i128 {
        i128::from(i64::from_le_bytes(self.bytes))
    }

    /// The number if it lies within the limits, else the given refusal here.
    pub fn within(&self, least: i128, most: i128, refusal: u32) -> Result<i128, Refusal> {
        let number = self.number();
        if least <= number && number <= most {
            Ok(number)
        } else {
            Err(Refusal::at(refusal, self.at))
        }
    }

    /// The field as a name, or NAME here if it is ill formed.
    pub fn name(&self) -> Result<[u8; 8], Refusal> {
        if well_formed(&self.bytes) {
            Ok(self.bytes)
        } else {
            Err(Refusal::at(NAME, self.at))
        }
    }
}

/// A name: a letter or underscore, then letters, digits and underscores, then
/// zero bytes only.
fn well_formed(bytes: &[u8; 8]) -> bool {
    let length = bytes.iter().position(|b| *b == 0).unwrap_or(8);
    let (name, rest) = bytes.split_at(length);
    let letters = name.iter().all(|b| b.is_ascii_alphanumeric() || *b == b'_');
    let first = name.first().is_some_and(|b| !b.is_ascii_digit());
    first && letters && rest.iter().all(|b| *b == 0)
}
