//! References in a text: replaced, tested, and the test for UTF-8.

use crate::{sys, Refusal};

/// The number of an operation on references, with the place of a 7, as a result. Their
/// contracts leave no other number.
fn finished(number: u32, at: usize) -> Result<(), Refusal> {
    match number {
        0 => Ok(()),
        7 => Err(Refusal::Reference { at }),
        10 => Err(Refusal::NoRoom),
        other => unreachable!("falzheod answered {other}"),
    }
}

/// Replaces the references in `text`, writes the result to the front of `out`
/// and gives its length.
///
/// The references are `lt`, `gt`, `amp`, `quot`, `apos`, `#` with decimal and `#x`
/// with hexadecimal digits, with or without one `+` right before the first digit, for
/// any Unicode scalar value. Other bytes are copied, UTF-8 or not. Bytes of `out` behind
/// the result are untouched. A bad reference is tested before room; a refusal writes
/// nothing.
///
/// ```
/// let mut out = *b".....";
/// assert_eq!(falzheod::unescape(b"&#x41;&lt;", &mut out), Ok(2));
/// assert_eq!(&out, b"A<...");
/// assert_eq!(falzheod::unescape(b"a&b", &mut out), Err(falzheod::Refusal::Reference { at: 1 }));
/// assert_eq!(falzheod::unescape(b"sapwood", &mut out), Err(falzheod::Refusal::NoRoom));
/// assert_eq!(&out, b"A<...");
/// ```
pub fn unescape(text: &[u8], out: &mut [u8]) -> Result<usize, Refusal> {
    let (number, place, length) = sys::unescape(text, out);
    finished(number, place).map(|()| length)
}

/// Replaces the references in `text` in a new vector.
///
/// The result is never longer than `text`, so one buffer of that length is room
/// enough and [`Refusal::NoRoom`] never comes.
///
/// ```
/// assert_eq!(falzheod::unescape_to_vec(b"bark &amp; pith").unwrap(), b"bark & pith");
/// assert_eq!(falzheod::unescape_to_vec(b"&zz;"), Err(falzheod::Refusal::Reference { at: 0 }));
/// ```
pub fn unescape_to_vec(text: &[u8]) -> Result<Vec<u8>, Refusal> {
    let mut out = vec![0; text.len()];
    let length = unescape(text, &mut out)?;
    out.truncate(length);
    Ok(out)
}

/// Tests every reference in `text` as XML 1.0 has it: one of the five names, or
/// digits without a sign whose value is a character of XML 1.0, 2.2.
///
/// This is stricter than [`unescape`]: what it takes, `unescape` takes. Its only
/// refusal is [`Refusal::Reference`]. So the two may name different places of a text:
/// `&#+65;&zz;` fails here at 0 and in `unescape` at 6.
///
/// ```
/// assert_eq!(falzheod::validate_references(b"&#65;&quot;"), Ok(()));
/// let bad = falzheod::Refusal::Reference { at: 0 };
/// assert_eq!(falzheod::validate_references(b"&#+65;&zz;"), Err(bad));
/// ```
pub fn validate_references(text: &[u8]) -> Result<(), Refusal> {
    let (number, place) = sys::validate_references(text);
    finished(number, place)
}

/// Tells whether `text` is well-formed UTF-8 (Unicode, table 3-7).
///
/// ```
/// assert!(falzheod::is_utf8("µm".as_bytes()));
/// assert!(!falzheod::is_utf8(b"\xB5m"));
/// ```
pub fn is_utf8(text: &[u8]) -> bool {
    sys::is_utf8(text)
}
