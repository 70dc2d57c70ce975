//! Texts that a reading gave, read as scalars, and the type that holds one.

use crate::{sys, Refusal};
use std::borrow::Cow;
use std::fmt;
use std::str::Utf8Error;

/// A text that a reading gave, unescaped.
///
/// It is bytes: [`as_str`](Text::as_str) says where they are not UTF-8. That comes only
/// of a table whose spans cut a character, which no table of `check` does.
///
/// ```
/// use falzheod::Text;
///
/// let width = Text::from(&b"1480"[..]);
/// assert_eq!(width.as_str(), Ok("1480"));
/// assert_eq!(width.integer(), Ok(1480));
/// assert!(Text::from(&b"\xB5m"[..]).as_str().is_err());
/// ```
#[derive(Clone, PartialEq, Eq, Hash, PartialOrd, Ord)]
pub struct Text<'a>(Cow<'a, [u8]>);

impl<'a> Text<'a> {
    /// The bytes.
    ///
    /// ```
    /// assert_eq!(falzheod::Text::from(&b"larch"[..]).as_bytes(), b"larch");
    /// ```
    pub fn as_bytes(&self) -> &[u8] {
        &self.0
    }

    /// The text as a `str`, if it is UTF-8.
    ///
    /// ```
    /// assert_eq!(falzheod::Text::from(&b"larch"[..]).as_str(), Ok("larch"));
    /// ```
    pub fn as_str(&self) -> Result<&str, Utf8Error> {
        std::str::from_utf8(&self.0)
    }

    /// The text as a boolean: `true` or `false`, nothing trimmed.
    ///
    /// ```
    /// assert_eq!(falzheod::Text::from(&b"true"[..]).boolean(), Ok(true));
    /// ```
    pub fn boolean(&self) -> Result<bool, Refusal> {
        text_boolean(&self.0)
    }

    /// The text as an integer of 32 bits, nothing trimmed.
    ///
    /// ```
    /// assert_eq!(falzheod::Text::from(&b"-4"[..]).integer(), Ok(-4));
    /// ```
    pub fn integer(&self) -> Result<i32, Refusal> {
        text_integer(&self.0)
    }

    /// The bytes, copied only where they are borrowed.
    ///
    /// ```
    /// assert_eq!(falzheod::Text::from(b"larch".to_vec()).into_bytes(), b"larch");
    /// ```
    pub fn into_bytes(self) -> Vec<u8> {
        self.0.into_owned()
    }
}

impl<'a> From<&'a [u8]> for Text<'a> {
    fn from(bytes: &'a [u8]) -> Self {
        Text(Cow::Borrowed(bytes))
    }
}

impl From<Vec<u8>> for Text<'_> {
    fn from(bytes: Vec<u8>) -> Self {
        Text(Cow::Owned(bytes))
    }
}

impl PartialEq<str> for Text<'_> {
    fn eq(&self, other: &str) -> bool {
        self.as_bytes() == other.as_bytes()
    }
}

impl PartialEq<&str> for Text<'_> {
    fn eq(&self, other: &&str) -> bool {
        self == *other
    }
}

impl fmt::Debug for Text<'_> {
    fn fmt(&self, f: &mut fmt::Formatter<'_>) -> fmt::Result {
        match self.as_str() {
            Ok(text) => write!(f, "{text:?}"),
            Err(_) => write!(f, "{:?}", self.as_bytes()),
        }
    }
}

/// Reads a text, such as an entry's, as a boolean.
///
/// ```
/// assert_eq!(falzheod::text_boolean(b"true"), Ok(true));
/// assert_eq!(falzheod::text_boolean(b"TRUE"), Err(falzheod::Refusal::NotBoolean));
/// ```
pub fn text_boolean(text: &[u8]) -> Result<bool, Refusal> {
    match sys::text_boolean(text) {
        (0, value) => Ok(value),
        (11, _) => Err(Refusal::NotBoolean),
        (other, _) => unreachable!("falzheod answered {other}"),
    }
}

/// Reads a text, such as an entry's, as an integer of 32 bits.
///
/// ```
/// assert_eq!(falzheod::text_integer(b"+5"), Ok(5));
/// assert_eq!(falzheod::text_integer(b"2147483648"), Err(falzheod::Refusal::NotInteger));
/// ```
pub fn text_integer(text: &[u8]) -> Result<i32, Refusal> {
    match sys::text_integer(text) {
        (0, value) => Ok(value),
        (12, _) => Err(Refusal::NotInteger),
        (other, _) => unreachable!("falzheod answered {other}"),
    }
}

/// Copies a text, such as an entry's, to the front of `out`, and gives its length.
///
/// ```
/// let mut out = [0; 4];
/// assert_eq!(falzheod::text_string(b"oak", &mut out), Ok(3));
/// assert_eq!(falzheod::text_string(b"larch", &mut out), Err(falzheod::Refusal::NoRoom));
/// ```
pub fn text_string(text: &[u8], out: &mut [u8]) -> Result<usize, Refusal> {
    match sys::text_string(text, out) {
        (0, length) => Ok(length),
        (10, _) => Err(Refusal::NoRoom),
        (other, _) => unreachable!("falzheod answered {other}"),
    }
}
