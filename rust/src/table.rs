//! The token table of a body, by the tokenizer of the crate xmlparser (feature
//! `xmlparser`). The tokenizer is not proved; [`drain`](crate::drain) tests every
//! rule of the table it gives.

use crate::row::open_after;
use crate::{Limit, Row};
use std::ops::Range;
use xmlparser::{ElementEnd, Error, StrSpan, Token, Tokenizer};

/// A token table: what [`drain`](crate::drain) takes beside the body.
///
/// ```
/// use falzheod::table::{from_tokens, Table};
///
/// let Table { rows, end } = from_tokens(b"<core/>");
/// assert_eq!((rows.len(), end), (2, 7));
/// ```
#[derive(Clone, Debug, Default, PartialEq, Eq)]
pub struct Table {
    /// One row for each token.
    pub rows: Vec<Row>,
    /// The final position.
    pub end: u32,
}

/// The table of `body`: a row for each token that xmlparser gives, up to its first
/// error, which is a row of kind 8, and the body's length as final position. A body that
/// is not UTF-8 has no rows and the final position 0.
///
/// It stops where a limit is passed ([`Limit`]), so it never has more than 8,193 rows; a
/// body of more than 65,536 bytes is not tokenized at all. The drain refuses each of
/// these as it would the whole table. `check` says which limit it is, and where.
///
/// ```
/// let body = b"<core id='7'>larch &amp; pine</core>";
/// let table = falzheod::table::from_tokens(body);
/// assert_eq!((table.rows.len(), table.end), (5, 36));
/// assert_eq!(falzheod::drain(body, &table.rows, table.end), Ok(()));
///
/// let deep = "<a>".repeat(1_000_000);
/// let table = falzheod::table::from_tokens(deep.as_bytes());
/// assert_eq!(table.rows.len(), 0);
/// let refused = falzheod::drain(deep.as_bytes(), &table.rows, table.end);
/// assert_eq!(refused, Err(falzheod::Refusal::Table));
/// ```
pub fn from_tokens(body: &[u8]) -> Table {
    let mut table = Table::default();
    if let Ok(text) = std::str::from_utf8(body) {
        table.end = number(text.len());
        if text.len() <= Limit::Bytes.most() {
            fill(text, &mut table.rows);
        }
    }
    table
}

/// Puts the rows of a text in the place of those that are there, up to the first past a
/// limit, and gives the tokenizer's error, if it had one.
pub(crate) fn fill(text: &str, rows: &mut Vec<Row>) -> Option<Error> {
    rows.clear();
    let mut open = 0;
    for token in Tokenizer::from(text) {
        match token {
            Ok(token) => rows.push(row(token)),
            Err(failed) => {
                rows.push(error(text));
                return Some(failed);
            }
        }
        open = open_after(open, &rows[rows.len() - 1]);
        if rows.len() > Limit::Rows.most() || open > Limit::Open.most() {
            break;
        }
    }
    None
}

/// The tokenizer jumps to the end of the body where it cannot go on.
fn error(text: &str) -> Row {
    Row {
        kind: 8,
        position: number(text.len()),
        ..Row::default()
    }
}

fn row(token: Token<'_>) -> Row {
    match token {
        Token::ElementStart {
            prefix,
            local,
            span,
        } => named(1, prefix, local, span),
        Token::Attribute {
            prefix,
            local,
            value,
            span,
        } => valued(named(2, prefix, local, span), value),
        Token::ElementEnd { end, span } => match end {
            ElementEnd::Open => plain(3, span),
            ElementEnd::Close(prefix, local) => named(4, prefix, local, span),
            ElementEnd::Empty => plain(5, span),
        },
        Token::Text { text } => valued(plain(6, text), text),
        Token::Declaration { span, .. }
        | Token::ProcessingInstruction { span, .. }
        | Token::Comment { span, .. }
        | Token::DtdStart { span, .. }
        | Token::EmptyDtd { span, .. }
        | Token::EntityDeclaration { span, .. }
        | Token::DtdEnd { span }
        | Token::Cdata { span, .. } => plain(7, span),
    }
}

/// The position behind a token is the end of its span: the tokenizer takes the
/// span up to where its stream stands.
fn plain(kind: u32, span: StrSpan<'_>) -> Row {
    Row {
        kind,
        position: number(span.end()),
        ..Row::default()
    }
}

/// A local name keeps its start even where it is empty.
fn named(kind: u32, prefix: StrSpan<'_>, local: StrSpan<'_>, span: StrSpan<'_>) -> Row {
    let prefix = filled(prefix);
    Row {
        prefix_start: number(prefix.start),
        prefix_len: number(prefix.len()),
        local_start: number(local.start()),
        local_len: number(local.as_str().len()),
        ..plain(kind, span)
    }
}

fn valued(row: Row, value: StrSpan<'_>) -> Row {
    let value = filled(value);
    Row {
        value_start: number(value.start),
        value_len: number(value.len()),
        ..row
    }
}

/// A span that is empty starts at 0.
fn filled(span: StrSpan<'_>) -> Range<usize> {
    if span.as_str().is_empty() {
        0..0
    } else {
        span.range()
    }
}

fn number(place: usize) -> u32 {
    u32::try_from(place).unwrap_or(u32::MAX)
}
