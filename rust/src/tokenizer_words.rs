//! What the tokenizer says of an error, in its own words, and the byte it speaks of. Its
//! places are left out of the words: it counts lines by LF alone.

use xmlparser::{Error, StreamError, TextPos};

/// The byte of an error and what the tokenizer says.
pub(crate) fn said(text: &str, error: Error) -> (usize, String) {
    let (what, cause, begins) = match error {
        Error::InvalidDeclaration(cause, at) => ("invalid XML declaration", cause, at),
        Error::InvalidComment(cause, at) => ("invalid comment", cause, at),
        Error::InvalidPI(cause, at) => ("invalid processing instruction", cause, at),
        Error::InvalidDoctype(cause, at) => ("invalid DTD", cause, at),
        Error::InvalidEntity(cause, at) => ("invalid DTD entity", cause, at),
        Error::InvalidElement(cause, at) => ("invalid element", cause, at),
        Error::InvalidAttribute(cause, at) => ("invalid attribute", cause, at),
        Error::InvalidCdata(cause, at) => ("invalid CDATA", cause, at),
        Error::InvalidCharData(cause, at) => ("invalid character data", cause, at),
        Error::UnknownToken(at) => return (byte_of(text, at), "unknown token".to_string()),
    };
    let byte = byte_of_cause(text, cause, byte_of(text, begins));
    (byte, format!("{what}: {}", words(text, cause, byte)))
}

/// The byte of a place that the tokenizer tells: a line, counted by LF, and a column in
/// characters, both from 1.
fn byte_of(text: &str, place: TextPos) -> usize {
    let line = match place.row {
        0 | 1 => 0,
        row => {
            let mut ends = text.bytes().enumerate().filter(|(_, byte)| *byte == b'\n');
            ends.nth(row as usize - 2)
                .map_or(text.len(), |(at, _)| at + 1)
        }
    };
    let mut characters = text[line..].char_indices();
    let column = characters.nth((place.col as usize).saturating_sub(1));
    column.map_or(text.len(), |(at, _)| line + at)
}

/// The byte of a cause, in a token that begins at `begins`.
fn byte_of_cause(text: &str, cause: StreamError, begins: usize) -> usize {
    let find = |what: &str, from: usize| {
        let rest = text.get(from..).unwrap_or_default();
        rest.find(what).map_or(begins, |at| from + at)
    };
    match cause {
        StreamError::UnexpectedEndOfStream => text.len(),
        StreamError::InvalidCommentData => find("--", begins + 4),
        StreamError::InvalidCommentEnd => find("--->", begins + 3),
        StreamError::InvalidCharacterData => find("]]>", begins),
        StreamError::InvalidName => name_in(text, begins),
        cause => place_of(cause).map_or(begins, |place| byte_of(text, place)),
    }
}

/// Where the name stands in a token that begins at `begins`: behind the word that the token
/// begins with, and behind white space, which belongs to an attribute's token too.
fn name_in(text: &str, begins: usize) -> usize {
    let token = &text[begins..];
    let words = ["<!DOCTYPE", "<!ENTITY", "<?"];
    let behind = words.iter().find_map(|word| token.strip_prefix(word));
    let spaces = |c: char| matches!(c, ' ' | '\t' | '\r' | '\n');
    text.len() - behind.unwrap_or(token).trim_start_matches(spaces).len()
}

/// The place that the tokenizer tells of a cause.
fn place_of(cause: StreamError) -> Option<TextPos> {
    match cause {
        StreamError::NonXmlChar(_, at)
        | StreamError::InvalidChar(_, _, at)
        | StreamError::InvalidCharMultiple(_, _, at)
        | StreamError::InvalidQuote(_, at)
        | StreamError::InvalidSpace(_, at)
        | StreamError::InvalidString(_, at) => Some(at),
        _ => None,
    }
}

/// The words of a cause at a byte.
fn words(text: &str, cause: StreamError, byte: usize) -> String {
    let mut words = cause.to_string();
    if let Some(place) = place_of(cause) {
        for tail in [format!(" at {place}"), " found".to_string()] {
            words.truncate(words.strip_suffix(&tail).map_or(words.len(), str::len));
        }
    }
    if let Some(found) = found(cause) {
        // the tokenizer shows the first byte alone
        let whole = text.get(byte..).and_then(|rest| rest.chars().next());
        let (shown, whole) = (char::from(found), whole.unwrap_or(char::from(found)));
        words = words.replace(&format!("not '{shown}'"), &format!("not '{whole}'"));
    }
    words.chars().flat_map(visible).collect()
}

/// The byte that the tokenizer found in the place of another.
fn found(cause: StreamError) -> Option<u8> {
    match cause {
        StreamError::InvalidChar(found, ..)
        | StreamError::InvalidCharMultiple(found, ..)
        | StreamError::InvalidQuote(found, _)
        | StreamError::InvalidSpace(found, _) => Some(found),
        _ => None,
    }
}

/// A character that can be shown in a line.
fn visible(c: char) -> impl Iterator<Item = char> {
    let escaped = c.is_control().then(|| c.escape_default());
    let plain = (!c.is_control()).then_some(c);
    escaped.into_iter().flatten().chain(plain)
}
