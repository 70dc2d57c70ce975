//! A sheet back as text, in the words in which it is parsed.

use super::block::KINDS;
use super::member::FLAGS;
use super::Shape;
use falzheod::{ListSheet, MapSheet, Member, StructSheet};
use std::borrow::Cow;

/// Words of the format beside those that begin a sheet or a member: all are names only in
/// quotes.
const WORDS: [&str; 8] = [
    "shape",
    "named",
    "original",
    "member",
    "unwrapped",
    "by",
    "value",
    "-",
];

/// The name of a sheet that has none of its own.
const NAMELESS: &[u8] = b"root";

/// The lines of a sheet.
pub fn text(shape: &Shape) -> String {
    match shape {
        Shape::Structure(sheet) => structure(sheet),
        Shape::List(sheet) | Shape::Strings(sheet) => list(shape.kind(), sheet),
        Shape::Map(sheet) => map(sheet),
    }
}

fn structure(sheet: &StructSheet) -> String {
    let mut said = format!("structure {}", word(sheet.shape_name()));
    for (keyword, name) in [
        ("named", sheet.name_in_xml()),
        ("original", sheet.original_name()),
        ("member", sheet.member_name()),
    ] {
        said += &behind(keyword, name);
    }
    if sheet.is_unwrapped() {
        said += " unwrapped";
    }
    let members = sheet.members().iter().map(member);
    said + "\n" + &members.collect::<String>()
}

fn member(member: &Member) -> String {
    let is_plain = !member.is_attribute() && !member.is_aggregate();
    let flags = [
        (member.is_attribute(), "attribute "),
        (member.is_flattened(), "flattened "),
        (member.is_aggregate(), "aggregate "),
        (is_plain, "scalar "),
    ];
    let flags: String = flags.iter().filter(|f| f.0).map(|f| f.1).collect();
    let named = behind("named", member.name_in_xml());
    format!("  {flags}{}{named}\n", name(member.own_name()))
}

fn list(kind: &str, sheet: &ListSheet) -> String {
    let mut said = format!(
        "{kind} {}{}\n",
        word(NAMELESS),
        flattened(sheet.is_flattened())
    );
    if sheet.item_name().is_some() {
        let named = behind("named", sheet.item_name_in_xml());
        said += &format!("  item {}{named}\n", name(sheet.item_own_name()));
    }
    said
}

fn map(sheet: &MapSheet) -> String {
    let mut said = format!(
        "map {}{}\n",
        word(NAMELESS),
        flattened(sheet.is_flattened())
    );
    if let Some(name) = sheet.key_name_in_xml() {
        said += &format!("  key {}\n", word(name));
    }
    if sheet.has_value() {
        let aggregate = if sheet.has_aggregate_value() {
            "aggregate "
        } else {
            ""
        };
        said += &format!("  {aggregate}value {}\n", name(sheet.value_name_in_xml()));
    }
    said
}

fn flattened(stands: bool) -> &'static str {
    if stands {
        " flattened"
    } else {
        ""
    }
}

fn behind(keyword: &str, name: Option<&[u8]>) -> String {
    name.map_or(String::new(), |name| format!(" {keyword} {}", word(name)))
}

fn name(name: Option<&[u8]>) -> Cow<'_, str> {
    name.map_or("-".into(), word)
}

/// A name as a word: bare where that is read back as the name, else in quotes.
fn word(name: &[u8]) -> Cow<'_, str> {
    let is_bare = |c: char| c.is_alphanumeric() || matches!(c, '_' | '-' | '.' | ':');
    match std::str::from_utf8(name) {
        Ok(text) if text.chars().all(is_bare) && !is_word(text) => text.into(),
        _ => quoted(name).into(),
    }
}

fn is_word(text: &str) -> bool {
    let words = KINDS.iter().chain(&FLAGS).chain(&WORDS);
    words.into_iter().any(|word| *word == text)
}

fn quoted(name: &[u8]) -> String {
    let mut said = String::from("\"");
    for chunk in name.utf8_chunks() {
        for c in chunk.valid().chars() {
            match c {
                '"' | '\\' => said.extend(['\\', c]),
                ' ' => said.push(c),
                c if c.is_control() || c.is_whitespace() => {
                    said.push_str(&in_hex(c.encode_utf8(&mut [0; 4]).as_bytes()));
                }
                c => said.push(c),
            }
        }
        said.push_str(&in_hex(chunk.invalid()));
    }
    said + "\""
}

fn in_hex(bytes: &[u8]) -> String {
    bytes.iter().map(|byte| format!("\\x{byte:02x}")).collect()
}
