//! Places in a body as a person counts them: by line and column.

use std::fmt;

/// The mark that some programs write at the front of UTF-8.
const MARK: &[u8] = b"\xEF\xBB\xBF";

/// A place in a body: its byte from 0, and its line and column from 1.
///
/// Lines end in LF, CR LF or a lone CR. A column counts characters, not bytes; a byte
/// order mark at the front of the body is none.
///
/// ```
/// use falzheod::Place;
///
/// let place = Place::of("é\r\n  µm".as_bytes(), 8);
/// assert_eq!(place, Place { byte: 8, line: 2, column: 4 });
/// assert_eq!(place.to_string(), "line 2, column 4");
/// ```
#[derive(Clone, Copy, Debug, PartialEq, Eq, Hash, PartialOrd, Ord)]
pub struct Place {
    /// How many bytes stand before it.
    pub byte: usize,
    /// Its line, from 1.
    pub line: usize,
    /// Its column in characters, from 1.
    pub column: usize,
}

impl Place {
    /// The front of a body.
    pub(crate) const FRONT: Place = Place {
        byte: 0,
        line: 1,
        column: 1,
    };

    /// The place of a byte in a body; that of its end where it has no such byte.
    ///
    /// ```
    /// assert_eq!(falzheod::Place::of(b"<a>\n<b>", 4).line, 2);
    /// ```
    pub fn of(body: &[u8], byte: usize) -> Place {
        let byte = byte.min(body.len());
        let mut place = Place {
            byte,
            ..Place::FRONT
        };
        let front = if body.starts_with(MARK) {
            MARK.len().min(byte)
        } else {
            0
        };
        // inside a character the place is that of the character
        let counted = byte - begun(&body[..byte]);
        for at in front..counted {
            match body[at] {
                b'\r' if body.get(at + 1) != Some(&b'\n') => place.next_line(),
                b'\n' => place.next_line(),
                // goes on with a character that an earlier byte began
                0x80..=0xBF => {}
                _ => place.column += 1,
            }
        }
        place
    }

    fn next_line(&mut self) {
        self.line += 1;
        self.column = 1;
    }
}

/// How many bytes at the end of a text begin a character that is not whole there.
fn begun(text: &[u8]) -> usize {
    match std::str::from_utf8(text) {
        Err(error) if error.error_len().is_none() => text.len() - error.valid_up_to(),
        _ => 0,
    }
}

impl fmt::Display for Place {
    fn fmt(&self, f: &mut fmt::Formatter<'_>) -> fmt::Result {
        write!(f, "line {}, column {}", self.line, self.column)
    }
}
