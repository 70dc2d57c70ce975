//! The bytes of sheets: written with every name tested, and read back.

use super::{SheetError, MOST_NAME_BYTES};

/// A name of a sheet, as it was given.
pub(super) type Name = Option<Vec<u8>>;

/// The sum of the bits that stand, the first being bit 0.
pub(super) fn bits(stand: &[bool]) -> u8 {
    let values = (0..)
        .zip(stand)
        .map(|(bit, stands)| u8::from(*stands) << bit);
    values.sum()
}

/// Writes a sheet.
#[derive(Default)]
pub(super) struct Writer {
    pub bytes: Vec<u8>,
    /// Which member is written, if one is.
    pub member: Option<usize>,
}

impl Writer {
    pub fn byte(&mut self, byte: u8) {
        self.bytes.push(byte);
    }

    /// A name, if there is one.
    pub fn name(&mut self, field: &'static str, name: &Name) -> Result<(), SheetError> {
        name.as_ref().map_or(Ok(()), |name| self.given(field, name))
    }

    /// A length byte 1 to 255, then the bytes.
    pub fn given(&mut self, field: &'static str, name: &[u8]) -> Result<(), SheetError> {
        let (member, length) = (self.member, name.len());
        match u8::try_from(length) {
            Ok(0) => Err(SheetError::EmptyName { field, member }),
            Ok(byte) => {
                self.byte(byte);
                self.bytes.extend_from_slice(name);
                Ok(())
            }
            Err(_) => {
                debug_assert!(length > MOST_NAME_BYTES);
                Err(SheetError::LongName {
                    field,
                    member,
                    length,
                })
            }
        }
    }
}

/// Reads a sheet.
pub(super) struct Reader<'a> {
    bytes: &'a [u8],
    at: usize,
}

impl<'a> Reader<'a> {
    pub fn new(bytes: &'a [u8]) -> Self {
        Reader { bytes, at: 0 }
    }

    /// The byte that is read next is wrong, or is not there.
    pub fn broken(&self) -> SheetError {
        SheetError::Broken { byte: self.at }
    }

    /// A byte of at most `most`.
    pub fn byte(&mut self, most: u8) -> Result<u8, SheetError> {
        match self.bytes.get(self.at) {
            Some(byte) if *byte <= most => {
                self.at += 1;
                Ok(*byte)
            }
            _ => Err(self.broken()),
        }
    }

    /// A bit map of `N` bits; higher bits are 0.
    pub fn bits<const N: usize>(&mut self) -> Result<[bool; N], SheetError> {
        let byte = self.byte((1 << N) - 1)?;
        Ok(std::array::from_fn(|bit| byte >> bit & 1 == 1))
    }

    /// A name, if its bit stands.
    pub fn name_if(&mut self, stands: bool) -> Result<Name, SheetError> {
        stands.then(|| self.name()).transpose()
    }

    pub fn name(&mut self) -> Result<Vec<u8>, SheetError> {
        let length = match self.bytes.get(self.at) {
            Some(length) if *length > 0 => usize::from(*length),
            _ => return Err(self.broken()),
        };
        self.at += 1;
        match self.bytes[self.at..].get(..length) {
            Some(name) => {
                self.at += length;
                Ok(name.to_vec())
            }
            None => {
                self.at = self.bytes.len();
                Err(self.broken())
            }
        }
    }

    /// The sheet ends with its last field.
    pub fn end(self) -> Result<(), SheetError> {
        if self.at == self.bytes.len() {
            Ok(())
        } else {
            Err(self.broken())
        }
    }
}
