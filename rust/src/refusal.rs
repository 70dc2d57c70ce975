//! Why an operation did not finish: the numbers of `include/falzheod.h`, by name.

use crate::Cause;
use std::fmt;

/// Why an operation did not finish.
///
/// Later versions may have more, so a `match` needs a last arm.
///
/// ```
/// use falzheod::Refusal;
///
/// let refusal = falzheod::text_integer(b"larch").unwrap_err();
/// assert_eq!(refusal, Refusal::NotInteger);
/// assert_eq!(refusal.to_string(), "the text is no integer of 32 bits");
/// ```
#[derive(Clone, Copy, Debug, PartialEq, Eq, Hash)]
#[non_exhaustive]
pub enum Refusal {
    /// The token table breaks a rule, so it is not looked at further.
    Table,
    /// The sheet is broken.
    Sheet,
    /// The depth is at or above the maximum.
    Depth,
    /// There is no root element.
    NoRoot,
    /// The root has another name than the sheet says.
    RootName,
    /// An element stands where text is wanted.
    ElementInText,
    /// A reference is bad: not ended, of an unknown name, or with a number that
    /// is not taken.
    Reference {
        /// Where its `&` stands, from 0: in the text of
        /// [`unescape`](crate::unescape()) and
        /// [`validate_references`](crate::validate_references), in the body of a reading.
        /// A strict reading tells what the drain tells, any other what fails to unescape.
        at: usize,
    },
    /// The tokenizer could not go on where text is wanted.
    Token,
    /// The table keeps the rules, but the document is ill-formed.
    IllFormed {
        /// The first failing row, from 0; the count of rows for an element that is
        /// still open at their end.
        row: usize,
        /// What is wrong with it.
        cause: Cause,
    },
    /// The result is longer than the room lent for it.
    NoRoom,
    /// The text is no boolean.
    NotBoolean,
    /// The text is no integer of 32 bits.
    NotInteger,
    /// No element has the name.
    NoSuchElement,
}

impl Refusal {
    /// The number of this refusal in `include/falzheod.h`.
    ///
    /// ```
    /// assert_eq!(falzheod::Refusal::Reference { at: 40 }.number(), 7);
    /// assert_eq!(falzheod::Refusal::NoRoom.number(), 10);
    /// ```
    pub fn number(self) -> u32 {
        match self {
            Refusal::Table => 1,
            Refusal::Sheet => 2,
            Refusal::Depth => 3,
            Refusal::NoRoot => 4,
            Refusal::RootName => 5,
            Refusal::ElementInText => 6,
            Refusal::Reference { .. } => 7,
            Refusal::Token => 8,
            Refusal::IllFormed { .. } => 9,
            Refusal::NoRoom => 10,
            Refusal::NotBoolean => 11,
            Refusal::NotInteger => 12,
            Refusal::NoSuchElement => 13,
        }
    }

    /// The refusal of a number; `at` is the place of a 7, and `ill_formed` tells the row
    /// and the cause of a 9. The library's contracts leave no other number.
    pub(crate) fn of(number: u32, at: usize, ill_formed: impl FnOnce() -> Refusal) -> Refusal {
        match number {
            1 => Refusal::Table,
            2 => Refusal::Sheet,
            3 => Refusal::Depth,
            4 => Refusal::NoRoot,
            5 => Refusal::RootName,
            6 => Refusal::ElementInText,
            7 => Refusal::Reference { at },
            8 => Refusal::Token,
            9 => ill_formed(),
            10 => Refusal::NoRoom,
            11 => Refusal::NotBoolean,
            12 => Refusal::NotInteger,
            13 => Refusal::NoSuchElement,
            other => unreachable!("falzheod answered {other}"),
        }
    }
}

impl fmt::Display for Refusal {
    fn fmt(&self, f: &mut fmt::Formatter<'_>) -> fmt::Result {
        f.write_str(match self {
            Refusal::Table => "the token table breaks a rule",
            Refusal::Sheet => "the sheet is broken",
            Refusal::Depth => "the depth is at or above the maximum",
            Refusal::NoRoot => "there is no root element",
            Refusal::RootName => "the root has another name than the sheet says",
            Refusal::ElementInText => "an element stands where text is wanted",
            Refusal::Reference { at } => return write!(f, "the reference at byte {at} is bad"),
            Refusal::Token => "a token error where text is wanted",
            Refusal::IllFormed { row, cause } => {
                return write!(f, "ill-formed at row {row}: {cause}")
            }
            Refusal::NoRoom => "the result does not fit into the room lent for it",
            Refusal::NotBoolean => "the text is no boolean",
            Refusal::NotInteger => "the text is no integer of 32 bits",
            Refusal::NoSuchElement => "no element has the name",
        })
    }
}

impl std::error::Error for Refusal {}
