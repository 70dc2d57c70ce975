//! Why a body is no upload, with the place of the fault.

use crate::row::{kind, open_after};
use crate::{Cause, Limit, Place, Refusal, Row};
use std::fmt;

/// Why a body is no upload, and where.
///
/// Later versions may have more, so a `match` needs a last arm.
///
/// ```
/// # #[cfg(feature = "xmlparser")] {
/// use falzheod::{check, CheckError, Place};
///
/// let error = check(b"<core>\n <id>7</core>").unwrap_err();
/// assert_eq!(error.place(), Place { byte: 13, line: 2, column: 7 });
/// assert!(matches!(&error, CheckError::Mismatched { found, .. } if found == "core"));
/// assert_eq!(
///     error.to_string(),
///     "line 2, column 7: the end tag </core> stands where <id> is open, \
///      since line 2, column 2"
/// );
/// # }
/// ```
#[derive(Clone, Debug, PartialEq, Eq, Hash)]
#[non_exhaustive]
pub enum CheckError {
    /// The body has no bytes.
    Empty,
    /// The body is not UTF-8.
    NotUtf8 {
        /// The first byte that is not.
        at: Place,
    },
    /// The body passes a limit.
    TooLarge {
        /// Which.
        limit: Limit,
        /// What is past it: a byte, a token or the start of an element.
        at: Place,
    },
    /// The body has no element.
    NoElement {
        /// Its end.
        at: Place,
    },
    /// The tokenizer could not go on.
    Token {
        /// Where.
        at: Place,
        /// What it says.
        words: String,
    },
    /// An end tag has another name than the innermost open element.
    Mismatched {
        /// The end tag.
        at: Place,
        /// Its name.
        found: String,
        /// The name of the element that is open.
        open: String,
        /// Where that opened.
        opened: Place,
    },
    /// An element is still open at the end of the body; of several, the innermost.
    Unclosed {
        /// The end of the body.
        at: Place,
        /// The name of the element.
        open: String,
        /// Where it opened.
        opened: Place,
    },
    /// A tag has an attribute twice.
    Repeated {
        /// The second.
        at: Place,
        /// Its name.
        name: String,
        /// The first.
        first: Place,
    },
    /// A reference is bad.
    Reference {
        /// Its `&`.
        at: Place,
        /// What stands there, cut short where it is long.
        reference: String,
    },
    /// The table breaks a rule and passes no limit. No body is known for which the
    /// feature's table does.
    Table,
}

impl CheckError {
    /// The place of the fault: its byte, line and column.
    ///
    /// ```
    /// assert_eq!(falzheod::CheckError::Empty.place().line, 1);
    /// ```
    pub fn place(&self) -> Place {
        match self {
            CheckError::NotUtf8 { at }
            | CheckError::TooLarge { at, .. }
            | CheckError::NoElement { at }
            | CheckError::Token { at, .. }
            | CheckError::Mismatched { at, .. }
            | CheckError::Unclosed { at, .. }
            | CheckError::Repeated { at, .. }
            | CheckError::Reference { at, .. } => *at,
            CheckError::Empty | CheckError::Table => Place::FRONT,
        }
    }

    /// The drain's cause, where it is the drain that found the document ill-formed.
    ///
    /// ```
    /// use falzheod::{Cause, CheckError};
    ///
    /// assert_eq!(CheckError::Empty.cause(), None);
    /// # #[cfg(feature = "xmlparser")]
    /// assert_eq!(falzheod::check(b"<a>").unwrap_err().cause(), Some(Cause::Unclosed));
    /// ```
    pub fn cause(&self) -> Option<Cause> {
        match self {
            CheckError::Token { .. } => Some(Cause::Token),
            CheckError::Mismatched { .. } => Some(Cause::Mismatched),
            CheckError::Unclosed { .. } => Some(Cause::Unclosed),
            CheckError::Repeated { .. } => Some(Cause::Repeated),
            CheckError::Reference { at, .. } => Some(Cause::Reference { at: at.byte }),
            _ => None,
        }
    }

    /// What the drain's refusal of a table means.
    pub(crate) fn of(body: &[u8], rows: &[Row], refusal: Refusal) -> CheckError {
        match (refusal, Limit::passed(body, rows)) {
            (Refusal::IllFormed { row, cause }, _) => ill_formed(body, rows, row, cause),
            (_, Some((limit, byte))) => {
                let at = Place::of(body, byte);
                CheckError::TooLarge { limit, at }
            }
            (_, None) => CheckError::Table,
        }
    }
}

/// What is wrong with a row; one behind the last is that of an unclosed element.
fn ill_formed(body: &[u8], rows: &[Row], row: usize, cause: Cause) -> CheckError {
    let place = |byte| Place::of(body, byte);
    let (before, fails) = (&rows[..row], rows.get(row).copied().unwrap_or_default());
    match cause {
        Cause::Token => CheckError::Token {
            at: place(before.last().map_or(0, |row| row.position as usize)),
            words: cause.to_string(),
        },
        Cause::Mismatched => {
            let (open, opened) = innermost(body, before);
            CheckError::Mismatched {
                at: place(fails.tag_start(body)),
                found: fails.name(body),
                open,
                opened,
            }
        }
        Cause::Unclosed => {
            let (open, opened) = innermost(body, before);
            let at = place(body.len());
            CheckError::Unclosed { at, open, opened }
        }
        Cause::Repeated => CheckError::Repeated {
            at: place(fails.name_start()),
            name: fails.name(body),
            first: place(alike(body, before, &fails).name_start()),
        },
        Cause::Reference { at } => CheckError::Reference {
            at: place(at),
            reference: shown(&fails.value(body)[at - fails.value_start as usize..]),
        },
    }
}

/// The name of the innermost element that is open after the rows, and its place.
fn innermost(body: &[u8], rows: &[Row]) -> (String, Place) {
    let mut open: Vec<&Row> = Vec::new();
    for row in rows {
        if row.kind == kind::START {
            open.push(row);
        } else {
            open.truncate(open_after(open.len(), row));
        }
    }
    let row = open.last().copied().copied().unwrap_or_default();
    (row.name(body), Place::of(body, row.tag_start(body)))
}

/// The attribute of the same tag that has the name of this one.
fn alike<'a>(body: &[u8], before: &'a [Row], row: &'a Row) -> &'a Row {
    let tag = before
        .iter()
        .rev()
        .take_while(|row| row.kind == kind::ATTRIBUTE);
    tag.filter(|other| {
        other.prefix(body) == row.prefix(body) && other.local(body) == row.local(body)
    })
    .last()
    .unwrap_or(row)
}

/// The most characters of a reference that are shown.
const SHOWN: usize = 32;

/// The reference at the front of a text: up to its `;`, to white space or to the next `&`.
fn shown(text: &[u8]) -> String {
    let text = String::from_utf8_lossy(text);
    let is_end = |c: char| matches!(c, ';' | '&') || c.is_whitespace();
    let end = text[1..].find(is_end).map_or(text.len(), |end| 1 + end);
    let end = end + usize::from(text[end..].starts_with(';'));
    text[..end].chars().take(SHOWN).collect()
}

impl fmt::Display for CheckError {
    fn fmt(&self, f: &mut fmt::Formatter<'_>) -> fmt::Result {
        match self {
            CheckError::Empty => f.write_str("the body is empty"),
            CheckError::NotUtf8 { at } => write!(f, "{at}: not UTF-8 at byte {}", at.byte),
            CheckError::TooLarge { limit, at } => write!(f, "{at}: {limit}"),
            CheckError::NoElement { at } => write!(f, "{at}: the body ends without an element"),
            CheckError::Token { at, words } => write!(f, "{at}: {words}"),
            CheckError::Mismatched {
                at,
                found,
                open,
                opened,
            } => write!(
                f,
                "{at}: the end tag </{found}> stands where <{open}> is open, since {opened}"
            ),
            CheckError::Unclosed { at, open, opened } => write!(
                f,
                "{at}: the body ends where <{open}> is open, since {opened}"
            ),
            CheckError::Repeated { at, name, first } => {
                write!(
                    f,
                    "{at}: the attribute {name} is repeated, first at {first}"
                )
            }
            CheckError::Reference { at, reference } => {
                write!(f, "{at}: the reference {reference} is bad")
            }
            CheckError::Table => f.write_str("the token table breaks a rule"),
        }
    }
}

impl std::error::Error for CheckError {}
