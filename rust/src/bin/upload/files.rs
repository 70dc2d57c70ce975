//! Where a body comes from: a file of any name, or standard input.

use crate::visible::visible_bytes;
use falzheod::Limit;
use std::ffi::{OsStr, OsString};
use std::fs::File;
use std::io::{self, Read};
use std::os::unix::ffi::OsStrExt;

/// The mark that some programs write at the front of UTF-8. It has no column.
pub const MARK: &[u8] = b"\xEF\xBB\xBF";

/// Bytes read past the limit of a body: enough for an excerpt of the line there.
const PAST: usize = 1_024;

/// What is read: `-` is standard input, all else the name of a file.
#[derive(Clone, Debug, PartialEq, Eq)]
pub enum Source {
    Input,
    File(OsString),
}

impl Source {
    pub fn of(word: &OsStr) -> Source {
        if word == "-" {
            Source::Input
        } else {
            Source::File(word.to_os_string())
        }
    }

    /// Its name as bytes.
    pub fn name(&self) -> &[u8] {
        match self {
            Source::Input => b"-",
            Source::File(name) => name.as_bytes(),
        }
    }

    /// Its name for a line of text.
    pub fn shown(&self) -> String {
        visible_bytes(self.name())
    }

    /// At most so many of its bytes. It is opened and read once, so it may be a FIFO.
    pub fn bytes(&self, most: usize) -> io::Result<Vec<u8>> {
        match self {
            Source::Input => front(io::stdin().lock(), most),
            Source::File(name) => front(File::open(name)?, most),
        }
    }
}

fn front(from: impl Read, most: usize) -> io::Result<Vec<u8>> {
    let mut bytes = Vec::new();
    from.take(most as u64).read_to_end(&mut bytes)?;
    Ok(bytes)
}

/// A body; of one that is too long no more than shows that, and where.
pub fn read(source: &Source) -> io::Result<Vec<u8>> {
    source.bytes(Limit::Bytes.most() + PAST)
}
