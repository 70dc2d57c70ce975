//! The strict drain: whether a token table stands for a well-formed document.

use crate::{sys, Refusal, Row};
use std::fmt;

/// Why a document is ill-formed.
///
/// ```
/// assert_eq!(falzheod::Cause::Unclosed.to_string(), "an element is not closed");
/// ```
#[derive(Clone, Copy, Debug, PartialEq, Eq, Hash)]
pub enum Cause {
    /// The tokenizer could not go on.
    Token,
    /// An end tag whose name is not that of the innermost open element.
    Mismatched,
    /// An element is still open where the rows end.
    Unclosed,
    /// An attribute of the same name as an earlier one of its tag.
    Repeated,
    /// A reference that [`validate_references`](crate::validate_references) refuses.
    Reference {
        /// Where its `&` stands in the body, from 0.
        at: usize,
    },
}

impl Cause {
    /// The number of this cause in `include/falzheod.h`.
    ///
    /// ```
    /// assert_eq!(falzheod::Cause::Repeated.number(), 4);
    /// ```
    pub fn number(self) -> u32 {
        match self {
            Cause::Token => 1,
            Cause::Mismatched => 2,
            Cause::Unclosed => 3,
            Cause::Repeated => 4,
            Cause::Reference { .. } => 5,
        }
    }

    /// The library's number as a cause; `at` is the place of a 5. Its contract leaves no
    /// other number.
    fn of(number: u32, at: usize) -> Self {
        match number {
            1 => Cause::Token,
            2 => Cause::Mismatched,
            3 => Cause::Unclosed,
            4 => Cause::Repeated,
            5 => Cause::Reference { at },
            other => unreachable!("falzheod told the cause {other}"),
        }
    }
}

impl fmt::Display for Cause {
    fn fmt(&self, f: &mut fmt::Formatter<'_>) -> fmt::Result {
        f.write_str(match self {
            Cause::Reference { at } => return write!(f, "the reference at byte {at} is bad"),
            Cause::Token => "a token error",
            Cause::Mismatched => "an end tag that does not match the open element",
            Cause::Unclosed => "an element is not closed",
            Cause::Repeated => "an attribute is repeated in its tag",
        })
    }
}

/// Tests that the rows, with the final position `end`, obey the rules of a token
/// table of `body` and that their tokens are well-formed.
///
/// The tests come in this order: the rules ([`Refusal::Table`]), then the rows one by
/// one ([`Refusal::IllFormed`] with the first that fails). A table that obeys the rules
/// and has no element passes: `Ok` does not say that there is a root, and a body that is
/// not UTF-8, which has no rows, passes so. Any rows are taken, whoever made them.
/// [`Upload::of_table`](crate::Upload::of_table) drains, wants a root and tells the place
/// of a fault.
///
/// ```
/// use falzheod::{drain, Cause, Refusal, Row};
///
/// let start = Row { kind: 1, local_start: 1, local_len: 1, position: 2, ..Row::default() };
/// let end = Row { kind: 5, position: 4, ..Row::default() };
/// assert_eq!(drain(b"<a/>", &[start, end], 4), Ok(()));
///
/// let cut = Refusal::IllFormed { row: 1, cause: Cause::Unclosed };
/// assert_eq!(drain(b"<a", &[start], 2), Err(cut));
/// assert_eq!(cut.to_string(), "ill-formed at row 1: an element is not closed");
///
/// assert_eq!(drain(b"<a", &[end], 2), Err(Refusal::Table));
/// ```
pub fn drain(body: &[u8], rows: &[Row], end: u32) -> Result<(), Refusal> {
    drain_numbers(body, sys::numbers(rows), end)
}

/// [`drain`] of a table that is held as plain numbers, eight a row in the order of
/// [`Row`]'s fields. A length that does not divide by 8 breaks the rules.
///
/// ```
/// let numbers = [1, 0, 0, 1, 1, 0, 0, 2, 5, 0, 0, 0, 0, 0, 0, 4];
/// assert_eq!(falzheod::drain_numbers(b"<a/>", &numbers, 4), Ok(()));
/// assert_eq!(falzheod::drain_numbers(b"<a/>", &numbers[..9], 4), Err(falzheod::Refusal::Table));
/// ```
pub fn drain_numbers(body: &[u8], rows: &[u32], end: u32) -> Result<(), Refusal> {
    let (number, row, cause, place) = sys::drain(body, rows, end);
    match number {
        0 => Ok(()),
        1 => Err(Refusal::Table),
        9 => Err(Refusal::IllFormed {
            row,
            cause: Cause::of(cause, place),
        }),
        other => unreachable!("falzheod answered {other}"),
    }
}
