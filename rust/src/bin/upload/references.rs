//! The references of a text: whether they are valid, the text with each replaced, and where
//! one is bad.

use crate::arguments::Format;
use crate::excerpt::excerpt;
use crate::json::{Json, Object};
use crate::output::Output;
use crate::status::Status;
use crate::visible::visible;
use falzheod::{unescape_to_vec, validate_references, Place, Refusal};
use std::io;

/// The first reference that is refused: its number, and where its `&` stands.
struct Bad {
    number: u32,
    place: Place,
}

/// Tells of a text. Only one whose references are valid is whole. Unescaping takes more than
/// is valid, so it may be another reference that refuses it.
pub fn show(text: &[u8], format: Format, output: &mut Output) -> io::Result<Status> {
    let valid = validate_references(text).map_err(|refusal| Bad::of(text, refusal));
    let unescaped = unescape_to_vec(text).map_err(|refusal| Bad::of(text, refusal));
    output.write(&match format {
        Format::Text => in_words(text, &valid, &unescaped),
        Format::Json => as_object(text, &valid, &unescaped),
    })?;
    Ok(if valid.is_ok() {
        Status::Whole
    } else {
        Status::Refused
    })
}

impl Bad {
    fn of(text: &[u8], refusal: Refusal) -> Bad {
        let Refusal::Reference { at } = refusal else {
            unreachable!("a text is refused for a reference alone, and not because {refusal}")
        };
        Bad {
            number: refusal.number(),
            place: place(text, at),
        }
    }
}

/// The place of a byte. What is not UTF-8 before it has the columns in which it is shown.
fn place(text: &[u8], byte: usize) -> Place {
    let before = String::from_utf8_lossy(&text[..byte]);
    let place = Place::of(before.as_bytes(), before.len());
    Place { byte, ..place }
}

fn in_words(text: &[u8], valid: &Result<(), Bad>, unescaped: &Result<Vec<u8>, Bad>) -> String {
    let validity = match valid {
        Ok(()) => "valid\n".to_string(),
        Err(bad) => format!("not valid: {}", shown(text, bad)),
    };
    let unescaped = match unescaped {
        Ok(text) => lines(text) + "\n",
        Err(bad) => format!("refused: {}", shown(text, bad)),
    };
    format!("references: {validity}unescaped: {unescaped}")
}

/// Its place, and its line with a caret under the `&`.
fn shown(text: &[u8], Bad { place, .. }: &Bad) -> String {
    format!("{place}: a reference is bad\n{}", excerpt(text, *place))
}

/// The text with its line ends.
fn lines(text: &[u8]) -> String {
    let text = String::from_utf8_lossy(text);
    let shown = |c| if c == '\n' { c } else { visible(c) };
    text.chars().map(shown).collect()
}

fn as_object(text: &[u8], valid: &Result<(), Bad>, unescaped: &Result<Vec<u8>, Bad>) -> String {
    let mut object = Object::default();
    let (number, place) = match valid {
        Ok(()) => (0, None),
        Err(bad) => (bad.number, Some(bad.place)),
    };
    let (unescaped, refusal) = match unescaped {
        Ok(text) => (Json::bytes(text), Json::Null),
        Err(bad) => (Json::Null, refusal(bad)),
    };
    object.add("text", Json::bytes(text));
    object.add("valid", Json::Bool(valid.is_ok()));
    object.add("number", Json::Number(number as usize));
    object.add_place(place);
    object.add("unescaped", unescaped);
    object.add("refusal", refusal);
    format!("{}\n", Json::Object(object))
}

fn refusal(bad: &Bad) -> Json {
    let mut object = Object::default();
    object.add("number", Json::Number(bad.number as usize));
    object.add_place(Some(bad.place));
    Json::Object(object)
}
