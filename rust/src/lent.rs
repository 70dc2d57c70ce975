//! The readings as the library has them: over tables of any content, by sheets of any
//! bytes, into buffers that are lent. They allocate nothing.
//!
//! [`Upload`](crate::Upload) has the same readings over what passed the drain, with
//! sheets that are not broken and buffers that suffice.
//!
//! ```
//! use falzheod::lent::{read_struct, Entry, Lent};
//! use falzheod::Settings;
//!
//! // `<r><w>7</w></r>` and its rows; a sheet with one member `w`, a scalar
//! let body = b"<r><w>7</w></r>";
//! let rows = [
//!     1, 0, 0, 1, 1, 0, 0, 2, 3, 0, 0, 0, 0, 0, 0, 3, // <r >
//!     1, 0, 0, 4, 1, 0, 0, 5, 3, 0, 0, 0, 0, 0, 0, 6, // <w >
//!     6, 0, 0, 0, 0, 6, 1, 7, 4, 0, 0, 9, 1, 0, 0, 11, // 7 </w>
//!     4, 0, 0, 13, 1, 0, 0, 15, // </r>
//! ];
//! let sheet = [0, 1, b'r', 1, 2, 1, b'w'];
//! let (mut entries, mut texts) = ([Entry::default(); 4], [0; 16]);
//! let lent = Lent { body, rows: &rows, end: 15 };
//! let written = read_struct(lent, &sheet, Settings::default(), 0, &mut entries, &mut texts)?;
//! assert_eq!((written.count, written.length), (1, 1));
//! assert_eq!(entries[0], Entry { kind: 1, len: 1, ..Entry::default() });
//! assert_eq!(&texts[..1], b"7");
//! # Ok::<(), falzheod::lent::Refused>(())
//! ```

use crate::sys::{self, Shape};
use crate::{drain_numbers, Refusal, Settings};
use std::fmt;
use std::mem::size_of;

/// An upload and its token table: what is read. Any content is taken.
///
/// ```
/// use falzheod::lent::{read_boolean, Lent};
///
/// let nothing = Lent { body: b"", rows: &[], end: 0 };
/// let refused = read_boolean(nothing, falzheod::Settings::default(), 0);
/// assert_eq!(refused, Err(falzheod::Refusal::NoRoot));
/// ```
#[derive(Clone, Copy, Debug)]
pub struct Lent<'a> {
    /// The body.
    pub body: &'a [u8],
    /// The table's numbers, eight a row in the order of [`Row`](crate::Row)'s fields.
    pub rows: &'a [u32],
    /// The final position.
    pub end: u32,
}

/// One of the six-number entries that a reading writes.
///
/// ```
/// // a piece of the body, of member 2
/// use falzheod::lent::Entry;
///
/// let piece = Entry { kind: 2, member: 2, start: 3, len: 8, ..Entry::default() };
/// assert_eq!(piece.key_len, 0);
/// ```
#[derive(Clone, Copy, Debug, Default, PartialEq, Eq, Hash)]
#[repr(C)]
pub struct Entry {
    /// 1 text, 2 piece of the body, 3 gathered group, 4 failed text.
    pub kind: u32,
    /// The index of the member; 0 for items and map entries.
    pub member: u32,
    /// Where the key starts in the texts; 0 outside maps.
    pub key_start: u32,
    /// How many bytes the key has.
    pub key_len: u32,
    /// Where it starts: kinds 1 and 3 in the texts, 2 in the body; in kind 4 the number.
    pub start: u32,
    /// How many bytes it has. In kind 4 it is where the failing `&` stands in the body, if
    /// the number is 7, and else 0.
    pub len: u32,
}

/// The kinds of entries.
pub(crate) mod kind {
    pub const TEXT: u32 = 1;
    pub const PIECE: u32 = 2;
    pub const GROUP: u32 = 3;
    pub const FAILED: u32 = 4;
}

/// The numbers of an entry in the library's buffers.
pub(crate) const NUMBERS: usize = 6;

// the library writes an entry as six numbers in a line
const _: () = assert!(size_of::<Entry>() == NUMBERS * size_of::<u32>());

/// How many entries and how many text bytes a reading wrote, finished or refused.
///
/// ```
/// let nothing = falzheod::lent::Written::default();
/// assert_eq!((nothing.count, nothing.length), (0, 0));
/// ```
#[derive(Clone, Copy, Debug, Default, PartialEq, Eq)]
pub struct Written {
    /// Entries at the front of the entry buffer.
    pub count: usize,
    /// Bytes at the front of the text buffer.
    pub length: usize,
}

/// A reading that was refused: why, and what stays written.
///
/// ```
/// use falzheod::lent::{read_list, Lent};
///
/// let nothing = Lent { body: b"", rows: &[], end: 0 };
/// let refused = read_list(nothing, &[0], Default::default(), 0, &mut []).unwrap_err();
/// assert_eq!(refused.refusal, falzheod::Refusal::NoRoot);
/// assert_eq!(refused.written.count, 0);
/// ```
#[derive(Clone, Copy, Debug, PartialEq, Eq)]
pub struct Refused {
    /// Why.
    pub refusal: Refusal,
    /// What had been written before.
    pub written: Written,
}

impl fmt::Display for Refused {
    fn fmt(&self, f: &mut fmt::Formatter<'_>) -> fmt::Result {
        let Written { count, length } = self.written;
        write!(
            f,
            "{}; {count} entries and {length} text bytes were written before",
            self.refusal
        )
    }
}

impl std::error::Error for Refused {}

/// What came of a number, with the place of a 7. Where an operation is refused with 9 the
/// drain tells the row and the cause.
fn finished<T>(number: u32, place: usize, lent: Lent<'_>, value: T) -> Result<T, Refusal> {
    if number == 0 {
        return Ok(value);
    }
    Err(Refusal::of(number, place, || {
        match drain_numbers(lent.body, lent.rows, lent.end) {
            Err(ill_formed) => ill_formed,
            Ok(()) => unreachable!("falzheod refused with 9 what the drain passes"),
        }
    }))
}

pub(crate) fn read(
    shape: Shape,
    lent: Lent<'_>,
    sheet: &[u8],
    settings: Settings,
    depth: u32,
    entries: &mut [Entry],
    texts: &mut [u8],
) -> Result<Written, Refused> {
    let (number, place, written) = sys::read(shape, lent, sheet, settings, depth, entries, texts);
    finished(number, place, lent, written).map_err(|refusal| Refused { refusal, written })
}

/// Reads a structure by its sheet: attribute members in sheet order, children in body
/// order, then the gathered groups by rising member index, to the first that does not fit;
/// those before it stay written. The [module](self) has a longer example.
///
/// ```
/// use falzheod::lent::{read_struct, Lent};
///
/// let rows = [1, 0, 0, 1, 1, 0, 0, 2, 5, 0, 0, 0, 0, 0, 0, 4];
/// let lent = Lent { body: b"<r/>", rows: &rows, end: 4 };
/// let written = read_struct(lent, b"\x00\x01r\x00", Default::default(), 0, &mut [], &mut [])?;
/// assert_eq!(written.count, 0);
/// # Ok::<(), falzheod::lent::Refused>(())
/// ```
pub fn read_struct(
    lent: Lent<'_>,
    sheet: &[u8],
    settings: Settings,
    depth: u32,
    entries: &mut [Entry],
    texts: &mut [u8],
) -> Result<Written, Refused> {
    read(Shape::Struct, lent, sheet, settings, depth, entries, texts)
}

/// Reads a list by its sheet: each item a piece of the body. No text is written.
///
/// ```
/// use falzheod::lent::{read_list, Entry, Lent};
///
/// let rows = [
///     1, 0, 0, 1, 1, 0, 0, 2, 3, 0, 0, 0, 0, 0, 0, 3, // <r >
///     1, 0, 0, 4, 1, 0, 0, 5, 5, 0, 0, 0, 0, 0, 0, 7, // <b />
///     4, 0, 0, 9, 1, 0, 0, 11, // </r>
/// ];
/// let lent = Lent { body: b"<r><b/></r>", rows: &rows, end: 11 };
/// let mut entries = [Entry::default(); 4];
/// let written = read_list(lent, &[0], Default::default(), 0, &mut entries)?;
/// assert_eq!(written.count, 1);
/// assert_eq!(entries[0], Entry { kind: 2, start: 3, len: 4, ..Entry::default() });
/// # Ok::<(), falzheod::lent::Refused>(())
/// ```
pub fn read_list(
    lent: Lent<'_>,
    sheet: &[u8],
    settings: Settings,
    depth: u32,
    entries: &mut [Entry],
) -> Result<Written, Refused> {
    read(Shape::List, lent, sheet, settings, depth, entries, &mut [])
}

/// Reads a map by its sheet: each entry with its key and a text or a piece.
///
/// ```
/// use falzheod::lent::{read_map, Lent};
///
/// let rows = [1, 0, 0, 1, 1, 0, 0, 2, 5, 0, 0, 0, 0, 0, 0, 4];
/// let empty = Lent { body: b"<m/>", rows: &rows, end: 4 };
/// let written = read_map(empty, &[0], Default::default(), 0, &mut [], &mut [])?;
/// assert_eq!(written.count, 0);
/// # Ok::<(), falzheod::lent::Refused>(())
/// ```
pub fn read_map(
    lent: Lent<'_>,
    sheet: &[u8],
    settings: Settings,
    depth: u32,
    entries: &mut [Entry],
    texts: &mut [u8],
) -> Result<Written, Refused> {
    read(Shape::Map, lent, sheet, settings, depth, entries, texts)
}

/// Reads a list of strings by a list sheet: each item a text.
///
/// ```
/// use falzheod::lent::{read_string_list, Lent};
///
/// let rows = [1, 0, 0, 1, 1, 0, 0, 2, 5, 0, 0, 0, 0, 0, 0, 4];
/// let empty = Lent { body: b"<l/>", rows: &rows, end: 4 };
/// let written = read_string_list(empty, &[0], Default::default(), 0, &mut [], &mut [])?;
/// assert_eq!(written.count, 0);
/// # Ok::<(), falzheod::lent::Refused>(())
/// ```
pub fn read_string_list(
    lent: Lent<'_>,
    sheet: &[u8],
    settings: Settings,
    depth: u32,
    entries: &mut [Entry],
    texts: &mut [u8],
) -> Result<Written, Refused> {
    let shape = Shape::StringList;
    read(shape, lent, sheet, settings, depth, entries, texts)
}

/// Reads the first text of the root as a boolean: `true` or `false`, nothing trimmed.
///
/// ```
/// use falzheod::lent::{read_boolean, Lent};
///
/// let rows = [
///     1, 0, 0, 1, 1, 0, 0, 2, 3, 0, 0, 0, 0, 0, 0, 3, // <b >
///     6, 0, 0, 0, 0, 3, 4, 7, 4, 0, 0, 9, 1, 0, 0, 11, // true </b>
/// ];
/// let lent = Lent { body: b"<b>true</b>", rows: &rows, end: 11 };
/// assert_eq!(read_boolean(lent, Default::default(), 0), Ok(true));
/// ```
pub fn read_boolean(lent: Lent<'_>, settings: Settings, depth: u32) -> Result<bool, Refusal> {
    let (number, place, value) = sys::read_boolean(lent, settings, depth);
    finished(number, place, lent, value)
}

/// Reads the first text of the root as an integer of 32 bits: an optional sign and
/// one or more digits, nothing trimmed.
///
/// ```
/// use falzheod::lent::{read_integer, Lent};
///
/// let rows = [
///     1, 0, 0, 1, 1, 0, 0, 2, 3, 0, 0, 0, 0, 0, 0, 3, // <w >
///     6, 0, 0, 0, 0, 3, 4, 7, 4, 0, 0, 9, 1, 0, 0, 11, // 1480 </w>
/// ];
/// let lent = Lent { body: b"<w>1480</w>", rows: &rows, end: 11 };
/// assert_eq!(read_integer(lent, Default::default(), 0), Ok(1480));
/// ```
pub fn read_integer(lent: Lent<'_>, settings: Settings, depth: u32) -> Result<i32, Refusal> {
    let (number, place, value) = sys::read_integer(lent, settings, depth);
    finished(number, place, lent, value)
}

/// Reads the first text of the root, unescaped, into the front of `out`, and gives
/// its length. A refusal writes nothing.
///
/// ```
/// use falzheod::lent::{read_string, Lent};
///
/// let rows = [
///     1, 0, 0, 1, 1, 0, 0, 2, 3, 0, 0, 0, 0, 0, 0, 3, // <s >
///     6, 0, 0, 0, 0, 3, 4, 7, 4, 0, 0, 9, 1, 0, 0, 11, // &lt; </s>
/// ];
/// let lent = Lent { body: b"<s>&lt;</s>", rows: &rows, end: 11 };
/// let mut out = [0; 4];
/// assert_eq!(read_string(lent, Default::default(), 0, &mut out), Ok(1));
/// assert_eq!(out[0], b'<');
///
/// let lent = Lent { body: b"<s>a&b;</s>", ..lent };
/// let bad = falzheod::Refusal::Reference { at: 4 };
/// assert_eq!(read_string(lent, Default::default(), 0, &mut out), Err(bad));
/// ```
pub fn read_string(
    lent: Lent<'_>,
    settings: Settings,
    depth: u32,
    out: &mut [u8],
) -> Result<usize, Refusal> {
    let (number, place, length) = sys::read_string(lent, settings, depth, out);
    finished(number, place, lent, length)
}

/// Joins all texts that stand directly in the root, unescaped, into the front of
/// `out`, and gives the length. The upload must pass the drain. A refusal writes nothing.
///
/// ```
/// use falzheod::lent::{whole_text, Lent};
///
/// let rows = [1, 0, 0, 1, 1, 0, 0, 2, 5, 0, 0, 0, 0, 0, 0, 4];
/// let lent = Lent { body: b"<s/>", rows: &rows, end: 4 };
/// assert_eq!(whole_text(lent, &mut []), Ok(0));
/// ```
pub fn whole_text(lent: Lent<'_>, out: &mut [u8]) -> Result<usize, Refusal> {
    let (number, length) = sys::whole_text(lent, out);
    finished(number, 0, lent, length)
}

/// The part of the body that has this local name: the whole body if the root has it,
/// else the root's first child that has it. The part borrows from the body alone.
///
/// ```
/// use falzheod::lent::{find, Lent};
///
/// let rows = [1, 0, 0, 1, 1, 0, 0, 2, 5, 0, 0, 0, 0, 0, 0, 4];
/// let lent = Lent { body: b"<s/>", rows: &rows, end: 4 };
/// assert_eq!(find(lent, b"s"), Ok(&b"<s/>"[..]));
/// assert_eq!(find(lent, b"t"), Err(falzheod::Refusal::NoSuchElement));
/// ```
pub fn find<'a>(lent: Lent<'a>, name: &[u8]) -> Result<&'a [u8], Refusal> {
    let (number, start, length) = sys::find(lent, name);
    finished(number, 0, lent, ())?;
    Ok(&lent.body[start..start + length])
}
