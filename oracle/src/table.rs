//! The token table of a body, and the drain over it.

use crate::decode::{Document, XmlDecodeError};
use xmlparser::{ElementEnd, StrSpan, Token, Tokenizer};

/// A token table as document 01 has it: eight numbers a row, and the final position.
#[derive(Debug, Default, PartialEq)]
pub struct Table {
    pub rows: Vec<[u32; 8]>,
    pub end: u32,
}

/// The table of the tokens that the Rust reads in `body`.
pub fn table(body: &[u8]) -> Table {
    let Ok(text) = std::str::from_utf8(body) else {
        // `unwrap_or_else(|_| Document::new(""))` in the deserializer
        return Table::default();
    };
    let mut tokenizer = Tokenizer::from(text); // as `Document::new`
    let mut rows = Vec::new();
    while let Some(token) = tokenizer.next() {
        let position = tokenizer.stream().pos(); // as `Document::offset`
        let (kind, prefix, local, value) = row(text, token);
        let row = [
            kind, prefix.0, prefix.1, local.0, local.1, value.0, value.1, position,
        ];
        rows.push(row.map(number));
    }
    let end = number(tokenizer.stream().pos());
    Table { rows, end }
}

fn number(place: usize) -> u32 {
    u32::try_from(place).expect("a body of less than 4 GiB")
}

/// The tokens of `body` read and thrown away: how many there are.
pub fn count_tokens(body: &[u8]) -> usize {
    std::str::from_utf8(body).map_or(0, |text| Tokenizer::from(text).count())
}

/// Start and length.
type Span = (usize, usize);

/// A token's kind and its spans: prefix, local name, value.
fn row(text: &str, token: Result<Token<'_>, xmlparser::Error>) -> (usize, Span, Span, Span) {
    let none = (0, 0);
    let filled = |span: StrSpan<'_>| {
        let (start, end) = (span.start(), span.end());
        if start == end {
            return none;
        }
        assert_eq!(&text[start..end], span.as_str());
        (start, end - start)
    };
    let name = |span: StrSpan<'_>| (span.start(), span.as_str().len());
    match token {
        Err(_) => (8, none, none, none),
        Ok(Token::ElementStart { prefix, local, .. }) => (1, filled(prefix), name(local), none),
        Ok(Token::Attribute {
            prefix,
            local,
            value,
            ..
        }) => (2, filled(prefix), name(local), filled(value)),
        Ok(Token::ElementEnd { end, .. }) => match end {
            ElementEnd::Open => (3, none, none, none),
            ElementEnd::Close(prefix, local) => (4, filled(prefix), name(local), none),
            ElementEnd::Empty => (5, none, none, none),
        },
        Ok(Token::Text { text }) => (6, none, none, filled(text)),
        Ok(_) => (7, none, none, none),
    }
}

/// A failing row and why: token, mismatched, unclosed, repeated or reference.
pub type Failure = (usize, &'static str);

/// The strict reading of all of `body`, as the readings run it.
pub fn is_well_formed(body: &[u8]) -> bool {
    open(body).finish_well_formed().is_ok()
}

fn open(body: &[u8]) -> Document<'_> {
    let mut doc = Document::try_from(body).unwrap_or_else(|_| Document::new(""));
    doc.check_well_formedness();
    doc
}

/// The same, and once more token by token for the row and the cause.
pub fn drain(body: &[u8]) -> Result<(), Failure> {
    let passes = is_well_formed(body);
    let mut doc = open(body);
    let mut row = 0;
    loop {
        match doc.next() {
            Some(Ok(_)) => row += 1,
            Some(Err(error)) => {
                assert!(doc.finish_well_formed().is_err() && !passes);
                return Err((row, cause(&error)));
            }
            None => {
                assert!(doc.finish_well_formed().is_ok() && passes);
                return Ok(());
            }
        }
    }
}

fn cause(error: &XmlDecodeError) -> &'static str {
    let text = error.to_string();
    let texts = [
        ("XML parse error", "token"),
        ("error parsing XML: mismatched end tag `", "mismatched"),
        ("error parsing XML: unclosed element `", "unclosed"),
        ("error parsing XML: duplicate attribute `", "repeated"),
        ("invalid XML escape: ", "reference"),
    ];
    for (start, cause) in texts {
        if text.starts_with(start) {
            return cause;
        }
    }
    panic!("a cause not known: {text}")
}
