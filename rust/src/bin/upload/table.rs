//! Entries as aligned tables, one for each level.

use crate::entries::{Entry, Level, Read, Refused, Value};
use crate::visible::{shortened, visible, width};
use falzheod::Place;
use std::ops::Range;

/// The most characters of a piece, a name or a key that are shown.
const MOST: usize = 48;

const HEAD: [&str; 5] = ["kind", "member", "key", "place", "value"];

/// The table of a level, and of each level below it.
pub fn levels(body: &[u8], level: &Level) -> String {
    let mut said = String::new();
    below(body, &shown(&level.sheet), level, &mut said);
    said
}

/// A level under its path, then those below it.
fn below(body: &[u8], path: &str, level: &Level, said: &mut String) {
    *said += &format!("{path}: {}\n", about(body, level));
    *said += &table(body, &level.entries);
    for (index, entry) in level.entries.iter().enumerate() {
        let path = format!("{path}/{}", step(index, entry));
        match &entry.read {
            Read::Not => {}
            Read::Whole(level) => below(body, &path, level, said),
            Read::Each(levels) => {
                for (number, level) in (1..).zip(levels) {
                    below(body, &format!("{path}[{number}]"), level, said);
                }
            }
        }
    }
}

/// The part of a path: the member, the key or the place in the list.
fn step(index: usize, entry: &Entry) -> String {
    match (&entry.name, &entry.key) {
        (Some(name), _) => shown(name),
        (None, Some(key)) => format!("[{}]", shown(key)),
        (None, None) => format!("[{}]", index + 1),
    }
}

/// By which sheet, how many, and the refusal.
fn about(body: &[u8], level: &Level) -> String {
    let place = match &level.piece {
        Some(piece) => format!(" at {}", place(body, piece)),
        None => String::new(),
    };
    let count = match level.entries.len() {
        1 => "1 entry".to_string(),
        count => format!("{count} entries"),
    };
    let by = format!("{} {}{place}", level.kind, shown(&level.sheet));
    match &level.refused {
        None => format!("{by}, {count}"),
        Some(refused) => format!("{by}, {}; {count} before", refused_with(refused)),
    }
}

fn refused_with(refused: &Refused) -> String {
    format!("refused with {}: {}", refused.number, refused.message)
}

fn place(body: &[u8], piece: &Range<usize>) -> String {
    let place = Place::of(body, piece.start);
    format!("{}:{}", place.line, place.column)
}

/// The aligned table; a column in which nothing stands is left out.
fn table(body: &[u8], entries: &[Entry]) -> String {
    if entries.is_empty() {
        return String::new();
    }
    let mut lines = vec![HEAD.map(String::from)];
    lines.extend(entries.iter().map(|entry| cells(body, entry)));
    let widths: Vec<usize> = (0..HEAD.len())
        .map(|column| {
            let filled = lines[1..].iter().any(|line| !line[column].is_empty());
            let widest = lines.iter().map(|line| width(&line[column])).max();
            widest.filter(|_| filled).unwrap_or(0)
        })
        .collect();
    lines.iter().map(|line| aligned(line, &widths)).collect()
}

fn aligned(line: &[String], widths: &[usize]) -> String {
    let mut said = String::new();
    for (cell, wide) in line.iter().zip(widths).filter(|(_, wide)| **wide > 0) {
        let space = wide.saturating_sub(width(cell));
        said += &format!("  {cell}{}", " ".repeat(space));
    }
    format!("{}\n", said.trim_end())
}

fn cells(body: &[u8], entry: &Entry) -> [String; 5] {
    let optional = |text: &Option<String>| {
        let text = text.as_deref().map(shown).unwrap_or_default();
        shortened(&text, MOST)
    };
    let (place, value) = match &entry.value {
        Value::Text(text) => (String::new(), shown(text)),
        Value::Piece(piece) => (place(body, piece), bytes(body, piece)),
        Value::Group(pieces) => group(body, pieces),
        Value::Failed(refused) => (String::new(), refused_with(refused)),
    };
    let kind = entry.kind().to_string();
    [
        kind,
        optional(&entry.name),
        optional(&entry.key),
        place,
        value,
    ]
}

/// The front of a piece in one line.
fn bytes(body: &[u8], piece: &Range<usize>) -> String {
    let text = String::from_utf8_lossy(&body[piece.clone()]);
    let words: Vec<&str> = text.split_ascii_whitespace().collect();
    let line = shortened(&shown(&words.join(" ")), MOST);
    format!("{line} ({} bytes)", piece.len())
}

fn group(body: &[u8], pieces: &[Range<usize>]) -> (String, String) {
    let Some(first) = pieces.first() else {
        return (String::new(), "no pieces".to_string());
    };
    let value = match pieces.len() {
        1 => format!("1 piece: {}", bytes(body, first)),
        count => format!("{count} pieces: {}, ..", bytes(body, first)),
    };
    (place(body, first), value)
}

/// A text in a cell: also its tabs and line ends are shown.
fn shown(text: &str) -> String {
    let cell = |c| if c == '\t' { '\u{2409}' } else { visible(c) };
    text.chars().map(cell).collect()
}
