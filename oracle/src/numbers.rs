//! The Rust's error texts become document 01's numbers.

use crate::decode::XmlDecodeError;
use aws_smithy_schema::serde::SerdeError;

/// The number of document 01 for an error, by its text and its constructor.
pub fn of_serde(error: &SerdeError) -> u32 {
    match error {
        SerdeError::Custom(text) => text_number(text),
        SerdeError::InvalidInput(text) if text.starts_with("expected XML root ") => 5,
        SerdeError::InvalidInput(text) if text.starts_with("ill-formed XML: ") => 9,
        other => panic!("an error not known: {other:?}"),
    }
}

pub fn of_decode(error: &XmlDecodeError) -> u32 {
    text_number(&error.to_string())
}

fn text_number(text: &str) -> u32 {
    let texts = [
        ("maximum nesting depth exceeded", 3),
        ("error parsing XML: no root element", 4),
        ("error parsing XML: looking for a data element, found: ", 6),
        ("invalid XML escape: ", 7),
        ("XML parse error", 8),
        ("error parsing XML: mismatched end tag `", 9),
        ("error parsing XML: unclosed element `", 9),
        ("error parsing XML: duplicate attribute `", 9),
        ("invalid boolean: ", 11),
        // the texts of std's ParseIntError
        ("cannot parse integer from empty string", 12),
        ("invalid digit found in string", 12),
        ("number too large to fit in target type", 12),
        ("number too small to fit in target type", 12),
        // the texts of std's ParseFloatError
        ("cannot parse float from empty string", 15),
        ("invalid float literal", 15),
    ];
    for (start, number) in texts {
        if text.starts_with(start) {
            return number;
        }
    }
    panic!("an error not known: {text}")
}
