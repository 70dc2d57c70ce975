//! Findings as JSON: one object a file, in one line.

use crate::entries::{Entry, Level, Read, Refused, Value};
use crate::files::Source;
use crate::finding::Finding;
use falzheod::Place;
use std::fmt;
use std::ops::Range;

/// A value of JSON.
pub enum Json {
    Null,
    Bool(bool),
    Number(usize),
    Text(String),
    Array(Vec<Json>),
    Object(Object),
}

/// An object: its keys in the order in which they were added.
#[derive(Default)]
pub struct Object(Vec<(&'static str, Json)>);

impl Object {
    pub fn add(&mut self, key: &'static str, value: Json) {
        self.0.push((key, value));
    }

    /// The byte, line and column of a place; null where there is none.
    pub fn add_place(&mut self, place: Option<Place>) {
        let part = |part: fn(Place) -> usize| Json::number(place.map(part));
        self.add("byte", part(|place| place.byte));
        self.add("line", part(|place| place.line));
        self.add("column", part(|place| place.column));
    }
}

impl Json {
    /// A text; what is not UTF-8 is U+FFFD.
    pub fn bytes(text: &[u8]) -> Json {
        Json::Text(String::from_utf8_lossy(text).into_owned())
    }

    fn number(number: Option<usize>) -> Json {
        number.map_or(Json::Null, Json::Number)
    }

    fn text(text: Option<&str>) -> Json {
        text.map_or(Json::Null, |text| Json::Text(text.to_string()))
    }
}

impl fmt::Display for Json {
    fn fmt(&self, f: &mut fmt::Formatter<'_>) -> fmt::Result {
        match self {
            Json::Null => f.write_str("null"),
            Json::Bool(value) => write!(f, "{value}"),
            Json::Number(number) => write!(f, "{number}"),
            Json::Text(text) => quoted(f, text),
            Json::Array(values) => {
                for (index, value) in values.iter().enumerate() {
                    write!(f, "{}{value}", if index == 0 { "[" } else { "," })?;
                }
                f.write_str(if values.is_empty() { "[]" } else { "]" })
            }
            Json::Object(Object(fields)) => {
                f.write_str("{")?;
                for (index, (key, value)) in fields.iter().enumerate() {
                    let comma = if index == 0 { "" } else { "," };
                    write!(f, "{comma}\"{key}\":{value}")?;
                }
                f.write_str("}")
            }
        }
    }
}

fn quoted(f: &mut fmt::Formatter<'_>, text: &str) -> fmt::Result {
    f.write_str("\"")?;
    for c in text.chars() {
        match c {
            '"' => f.write_str("\\\"")?,
            '\\' => f.write_str("\\\\")?,
            '\n' => f.write_str("\\n")?,
            '\r' => f.write_str("\\r")?,
            '\t' => f.write_str("\\t")?,
            '\u{2028}' | '\u{2029}' | '\u{FFFD}' => write!(f, "\\u{:04x}", c as u32)?,
            c if c.is_control() => write!(f, "\\u{:04x}", c as u32)?,
            c => write!(f, "{c}")?,
        }
    }
    f.write_str("\"")
}

/// What was found of a file.
pub fn checked(source: &Source, finding: &Finding) -> String {
    format!("{}\n", Json::Object(found(source, finding)))
}

/// What was found of a file, and what was read of it: nothing where it is refused.
pub fn read(source: &Source, body: &[u8], finding: &Finding, level: Option<&Level>) -> String {
    let mut object = found(source, finding);
    let is_whole = level.is_some_and(Level::is_whole);
    let none = || Json::Array(Vec::new());
    let written = level.map_or(none(), |level| entries(body, level));
    object.add("read", Json::Bool(is_whole));
    object.add("refusal", refusal(level.and_then(|l| l.refused.as_ref())));
    // whoever looks at the entries alone gets those of a whole reading or none
    let (all, before) = if is_whole {
        (written, none())
    } else {
        (none(), written)
    };
    object.add("entries", all);
    object.add("before", before);
    format!("{}\n", Json::Object(object))
}

fn found(source: &Source, finding: &Finding) -> Object {
    let mut object = Object::default();
    object.add("file", Json::bytes(source.name()));
    object.add("passes", Json::Bool(finding.passes()));
    object.add("number", Json::Number(finding.number as usize));
    object.add("cause", Json::text(finding.cause));
    object.add("row", Json::number(finding.row));
    object.add_place(finding.place);
    object.add("message", Json::Text(finding.message.clone()));
    object
}

fn refusal(refused: Option<&Refused>) -> Json {
    let Some(Refused { number, message }) = refused else {
        return Json::Null;
    };
    let mut object = Object::default();
    object.add("number", Json::Number(*number as usize));
    object.add("message", Json::Text(message.clone()));
    Json::Object(object)
}

fn entries(body: &[u8], level: &Level) -> Json {
    let all = level.entries.iter().map(|entry| self::entry(body, entry));
    Json::Array(all.collect())
}

fn entry(body: &[u8], entry: &Entry) -> Json {
    let mut object = Object::default();
    object.add("kind", Json::Text(entry.kind().to_string()));
    object.add("member", Json::Number(entry.member));
    object.add("name", Json::text(entry.name.as_deref()));
    object.add("key", Json::text(entry.key.as_deref()));
    match &entry.value {
        Value::Text(text) => object.add("text", Json::Text(text.clone())),
        Value::Piece(piece) => place(body, piece, &mut object),
        Value::Group(pieces) => {
            let places = pieces.iter().map(|piece| {
                let mut object = Object::default();
                place(body, piece, &mut object);
                Json::Object(object)
            });
            object.add("pieces", Json::Array(places.collect()));
        }
        Value::Failed(refused) => object.add("number", Json::Number(refused.number as usize)),
    }
    match &entry.read {
        Read::Not => {}
        Read::Whole(level) => object.add("below", self::level(body, level)),
        Read::Each(levels) => {
            let levels = levels.iter().map(|level| self::level(body, level));
            object.add("below", Json::Array(levels.collect()));
        }
    }
    Json::Object(object)
}

/// Where a piece stands in the file.
fn place(body: &[u8], piece: &Range<usize>, object: &mut Object) {
    let place = Place::of(body, piece.start);
    object.add("start", Json::Number(piece.start));
    object.add("length", Json::Number(piece.len()));
    object.add("line", Json::Number(place.line));
    object.add("column", Json::Number(place.column));
}

/// What was read of a piece or a group.
fn level(body: &[u8], level: &Level) -> Json {
    let mut object = Object::default();
    object.add("sheet", Json::Text(level.sheet.clone()));
    object.add("refusal", refusal(level.refused.as_ref()));
    object.add("entries", entries(body, level));
    Json::Object(object)
}
