//! The functions of the static library, as include/falzheod.h declares and
//! describes them, and the only unsafe code of the crate: the safe calls that the rest
//! of it makes. Whoever uses the crate has no need of this module.
//!
//! # Safety
//!
//! Each pointer is valid for its length, aligned and not null, not even where the
//! length is 0; what a function writes overlaps nothing else that is lent to it.
//!
//! ```
//! let (text, mut place) = (b"&lt;&zz;", 0);
//! // SAFETY: the pointers are those of a live slice, with its length, and of a variable.
//! let number = unsafe {
//!     falzheod::sys::falzheod_validate_references(text.as_ptr(), text.len(), &mut place)
//! };
//! assert_eq!((number, place), (7, 4));
//! ```
#![allow(unsafe_code)]

use crate::lent::{self, Entry, Lent};
use crate::{row, Row, Settings};

extern "C" {
    /// Replaces references. Answers 0, 7 or 10 and sets `length` and `place`.
    pub fn falzheod_unescape(
        text: *const u8,
        text_len: usize,
        out: *mut u8,
        out_len: usize,
        length: *mut usize,
        place: *mut usize,
    ) -> u32;
    /// Tests references. Answers 0 or 7 and sets `place`.
    pub fn falzheod_validate_references(text: *const u8, text_len: usize, place: *mut usize)
        -> u32;
    /// Tests UTF-8. Answers 1 or 0.
    pub fn falzheod_is_utf8(text: *const u8, text_len: usize) -> u32;
    /// Tests a token table. Answers 0, 1 or 9 and sets `row`, `cause` and `place`.
    pub fn falzheod_drain(
        body: *const u8,
        body_len: usize,
        rows: *const u32,
        rows_len: usize,
        end: u32,
        row: *mut usize,
        cause: *mut u32,
        place: *mut usize,
    ) -> u32;
    /// Reads a structure by its sheet.
    /// Answers a number and sets `count` and `length`.
    pub fn falzheod_read_struct(
        body: *const u8,
        body_len: usize,
        rows: *const u32,
        rows_len: usize,
        end: u32,
        sheet: *const u8,
        sheet_len: usize,
        flags: u32,
        max_depth: u32,
        depth: u32,
        entries: *mut u32,
        entries_len: usize,
        texts: *mut u8,
        texts_len: usize,
        count: *mut usize,
        length: *mut usize,
    ) -> u32;
    /// Reads a list: each item a piece.
    /// Answers a number and sets `count` and `length`.
    pub fn falzheod_read_list(
        body: *const u8,
        body_len: usize,
        rows: *const u32,
        rows_len: usize,
        end: u32,
        sheet: *const u8,
        sheet_len: usize,
        flags: u32,
        max_depth: u32,
        depth: u32,
        entries: *mut u32,
        entries_len: usize,
        texts: *mut u8,
        texts_len: usize,
        count: *mut usize,
        length: *mut usize,
    ) -> u32;
    /// Reads a map.
    /// Answers a number and sets `count`, `length` and `place`.
    pub fn falzheod_read_map(
        body: *const u8,
        body_len: usize,
        rows: *const u32,
        rows_len: usize,
        end: u32,
        sheet: *const u8,
        sheet_len: usize,
        flags: u32,
        max_depth: u32,
        depth: u32,
        entries: *mut u32,
        entries_len: usize,
        texts: *mut u8,
        texts_len: usize,
        count: *mut usize,
        length: *mut usize,
        place: *mut usize,
    ) -> u32;
    /// Reads a list of strings.
    /// Answers a number and sets `count`, `length` and `place`.
    pub fn falzheod_read_string_list(
        body: *const u8,
        body_len: usize,
        rows: *const u32,
        rows_len: usize,
        end: u32,
        sheet: *const u8,
        sheet_len: usize,
        flags: u32,
        max_depth: u32,
        depth: u32,
        entries: *mut u32,
        entries_len: usize,
        texts: *mut u8,
        texts_len: usize,
        count: *mut usize,
        length: *mut usize,
        place: *mut usize,
    ) -> u32;
    /// Reads a body as a boolean. Answers a number and sets `place`; sets
    /// `value` where it is 0.
    pub fn falzheod_read_boolean(
        body: *const u8,
        body_len: usize,
        rows: *const u32,
        rows_len: usize,
        end: u32,
        flags: u32,
        depth: u32,
        value: *mut u32,
        place: *mut usize,
    ) -> u32;
    /// Reads a body as an integer. Answers a number and sets `place`; sets
    /// `value` where it is 0.
    pub fn falzheod_read_integer(
        body: *const u8,
        body_len: usize,
        rows: *const u32,
        rows_len: usize,
        end: u32,
        flags: u32,
        depth: u32,
        value: *mut i32,
        place: *mut usize,
    ) -> u32;
    /// Reads a body as a string. Answers a number and sets `length` and `place`.
    pub fn falzheod_read_string(
        body: *const u8,
        body_len: usize,
        rows: *const u32,
        rows_len: usize,
        end: u32,
        flags: u32,
        depth: u32,
        out: *mut u8,
        out_len: usize,
        length: *mut usize,
        place: *mut usize,
    ) -> u32;
    /// Reads a text as a boolean. Answers 0 or 11; sets `value` where it is 0.
    pub fn falzheod_text_boolean(text: *const u8, text_len: usize, value: *mut u32) -> u32;
    /// Reads a text as an integer. Answers 0 or 12; sets `value` where it is 0.
    pub fn falzheod_text_integer(text: *const u8, text_len: usize, value: *mut i32) -> u32;
    /// Copies a text. Answers 0 or 10 and sets `length`.
    pub fn falzheod_text_string(
        text: *const u8,
        text_len: usize,
        out: *mut u8,
        out_len: usize,
        length: *mut usize,
    ) -> u32;
    /// Finds an element by its local name. Answers 0, 1 or 13 and sets `start` and `length`.
    pub fn falzheod_find(
        body: *const u8,
        body_len: usize,
        rows: *const u32,
        rows_len: usize,
        end: u32,
        name: *const u8,
        name_len: usize,
        start: *mut usize,
        length: *mut usize,
    ) -> u32;
    /// Joins the texts of the root. Answers a number and sets `length`.
    pub fn falzheod_whole_text(
        body: *const u8,
        body_len: usize,
        rows: *const u32,
        rows_len: usize,
        end: u32,
        out: *mut u8,
        out_len: usize,
        length: *mut usize,
    ) -> u32;
}

// ---- The safe calls. In each, the pointers are those of live slices or variables, never
// null, with their lengths; what is written is borrowed mutably, so nothing overlaps it.

/// The rows as numbers in a line.
pub(crate) fn numbers(rows: &[Row]) -> &[u32] {
    // SAFETY: a row is `row::NUMBERS` numbers without padding (`repr(C)`, and its size is
    // asserted beside it), so the rows are this many initialised numbers in a line.
    unsafe { std::slice::from_raw_parts(rows.as_ptr().cast(), rows.len() * row::NUMBERS) }
}

/// The number, the place and the length.
pub(crate) fn unescape(text: &[u8], out: &mut [u8]) -> (u32, usize, usize) {
    let (mut length, mut place) = (0, 0);
    // SAFETY: as said above.
    let number = unsafe {
        falzheod_unescape(
            text.as_ptr(),
            text.len(),
            out.as_mut_ptr(),
            out.len(),
            &mut length,
            &mut place,
        )
    };
    (number, place, length)
}

/// The number and the place.
pub(crate) fn validate_references(text: &[u8]) -> (u32, usize) {
    let mut place = 0;
    // SAFETY: as said above.
    let number = unsafe { falzheod_validate_references(text.as_ptr(), text.len(), &mut place) };
    (number, place)
}

pub(crate) fn is_utf8(text: &[u8]) -> bool {
    // SAFETY: as said above.
    unsafe { falzheod_is_utf8(text.as_ptr(), text.len()) == 1 }
}

/// The number, the row, the cause and the place.
pub(crate) fn drain(body: &[u8], rows: &[u32], end: u32) -> (u32, usize, u32, usize) {
    let (mut row, mut cause, mut place) = (0, 0, 0);
    // SAFETY: as said above.
    let number = unsafe {
        falzheod_drain(
            body.as_ptr(),
            body.len(),
            rows.as_ptr(),
            rows.len(),
            end,
            &mut row,
            &mut cause,
            &mut place,
        )
    };
    (number, row, cause, place)
}

/// The four readings by a sheet.
#[derive(Clone, Copy)]
pub(crate) enum Shape {
    Struct,
    List,
    Map,
    StringList,
}

/// The number, the place, and how many entries and text bytes were written.
pub(crate) fn read(
    shape: Shape,
    lent: Lent<'_>,
    sheet: &[u8],
    settings: Settings,
    depth: u32,
    entries: &mut [Entry],
    texts: &mut [u8],
) -> (u32, usize, lent::Written) {
    let (mut written, mut place) = (lent::Written::default(), 0);
    // what all four are lent, and then what only some are
    macro_rules! call {
        ($function:ident $(, $more:expr)?) => {
            // SAFETY: as said above; an entry is `lent::NUMBERS` numbers without padding
            // (`repr(C)`, and its size is asserted beside it).
            unsafe {
                $function(
                    lent.body.as_ptr(), lent.body.len(),
                    lent.rows.as_ptr(), lent.rows.len(), lent.end,
                    sheet.as_ptr(), sheet.len(),
                    settings.flags(), settings.max_depth, depth,
                    entries.as_mut_ptr().cast(), entries.len() * lent::NUMBERS,
                    texts.as_mut_ptr(), texts.len(),
                    &mut written.count, &mut written.length, $($more)?
                )
            }
        };
    }
    let number = match shape {
        Shape::Struct => call!(falzheod_read_struct),
        Shape::List => call!(falzheod_read_list),
        Shape::Map => call!(falzheod_read_map, &mut place),
        Shape::StringList => call!(falzheod_read_string_list, &mut place),
    };
    (number, place, written)
}

/// The number, the place, and the value where the number is 0.
pub(crate) fn read_boolean(lent: Lent<'_>, settings: Settings, depth: u32) -> (u32, usize, bool) {
    let (mut value, mut place) = (0, 0);
    // SAFETY: as said above.
    let number = unsafe {
        falzheod_read_boolean(
            lent.body.as_ptr(),
            lent.body.len(),
            lent.rows.as_ptr(),
            lent.rows.len(),
            lent.end,
            settings.flags(),
            depth,
            &mut value,
            &mut place,
        )
    };
    (number, place, value == 1)
}

/// The number, the place, and the value where the number is 0.
pub(crate) fn read_integer(lent: Lent<'_>, settings: Settings, depth: u32) -> (u32, usize, i32) {
    let (mut value, mut place) = (0, 0);
    // SAFETY: as said above.
    let number = unsafe {
        falzheod_read_integer(
            lent.body.as_ptr(),
            lent.body.len(),
            lent.rows.as_ptr(),
            lent.rows.len(),
            lent.end,
            settings.flags(),
            depth,
            &mut value,
            &mut place,
        )
    };
    (number, place, value)
}

/// The number, the place and the length.
pub(crate) fn read_string(
    lent: Lent<'_>,
    settings: Settings,
    depth: u32,
    out: &mut [u8],
) -> (u32, usize, usize) {
    let (mut length, mut place) = (0, 0);
    // SAFETY: as said above.
    let number = unsafe {
        falzheod_read_string(
            lent.body.as_ptr(),
            lent.body.len(),
            lent.rows.as_ptr(),
            lent.rows.len(),
            lent.end,
            settings.flags(),
            depth,
            out.as_mut_ptr(),
            out.len(),
            &mut length,
            &mut place,
        )
    };
    (number, place, length)
}

/// The number and the length.
pub(crate) fn whole_text(lent: Lent<'_>, out: &mut [u8]) -> (u32, usize) {
    let mut length = 0;
    // SAFETY: as said above.
    let number = unsafe {
        falzheod_whole_text(
            lent.body.as_ptr(),
            lent.body.len(),
            lent.rows.as_ptr(),
            lent.rows.len(),
            lent.end,
            out.as_mut_ptr(),
            out.len(),
            &mut length,
        )
    };
    (number, length)
}

/// The number, and the start and the length of the part.
pub(crate) fn find(lent: Lent<'_>, name: &[u8]) -> (u32, usize, usize) {
    let (mut start, mut length) = (0, 0);
    // SAFETY: as said above.
    let number = unsafe {
        falzheod_find(
            lent.body.as_ptr(),
            lent.body.len(),
            lent.rows.as_ptr(),
            lent.rows.len(),
            lent.end,
            name.as_ptr(),
            name.len(),
            &mut start,
            &mut length,
        )
    };
    (number, start, length)
}

/// The number, and the value where it is 0.
pub(crate) fn text_boolean(text: &[u8]) -> (u32, bool) {
    let mut value = 0;
    // SAFETY: as said above.
    let number = unsafe { falzheod_text_boolean(text.as_ptr(), text.len(), &mut value) };
    (number, value == 1)
}

/// The number, and the value where it is 0.
pub(crate) fn text_integer(text: &[u8]) -> (u32, i32) {
    let mut value = 0;
    // SAFETY: as said above.
    let number = unsafe { falzheod_text_integer(text.as_ptr(), text.len(), &mut value) };
    (number, value)
}

/// The number and the length.
pub(crate) fn text_string(text: &[u8], out: &mut [u8]) -> (u32, usize) {
    let mut length = 0;
    // SAFETY: as said above.
    let number = unsafe {
        falzheod_text_string(
            text.as_ptr(),
            text.len(),
            out.as_mut_ptr(),
            out.len(),
            &mut length,
        )
    };
    (number, length)
}
