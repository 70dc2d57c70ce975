//! `--format json`, read by a small parser.

use crate::common::{file, folder, piped, program, root, upload, Ran};
use std::collections::BTreeMap;
use std::ffi::OsStr;
use std::os::unix::ffi::OsStrExt;

/// A value of JSON.
#[derive(Clone, Debug, PartialEq)]
pub enum Value {
    Null,
    Bool(bool),
    Number(usize),
    Text(String),
    Array(Vec<Value>),
    Object(BTreeMap<String, Value>),
}

impl Value {
    /// What stands under a key of an object.
    pub fn of(&self, key: &str) -> &Value {
        match self {
            Value::Object(fields) => fields.get(key).unwrap_or(&Value::Null),
            other => panic!("{other:?} is no object"),
        }
    }

    pub fn items(&self) -> &[Value] {
        match self {
            Value::Array(items) => items,
            other => panic!("{other:?} is no array"),
        }
    }
}

impl From<&str> for Value {
    fn from(text: &str) -> Value {
        Value::Text(text.to_string())
    }
}

impl From<usize> for Value {
    fn from(number: usize) -> Value {
        Value::Number(number)
    }
}

/// Parses a line; anything that is not JSON panics.
pub fn parse(line: &str) -> Value {
    let mut rest = line;
    let value = value(&mut rest);
    assert_eq!(rest, "", "{line}");
    value
}

fn takes(rest: &mut &str, word: &str) -> bool {
    let behind = rest.strip_prefix(word);
    *rest = behind.unwrap_or(rest);
    behind.is_some()
}

fn value(rest: &mut &str) -> Value {
    match rest.chars().next().expect("a value") {
        '"' => Value::Text(text(rest)),
        '[' => Value::Array(several(rest, ("[", "]"), value)),
        '{' => Value::Object(several(rest, ("{", "}"), field).into_iter().collect()),
        '0'..='9' => number(rest),
        _ if takes(rest, "null") => Value::Null,
        _ if takes(rest, "true") => Value::Bool(true),
        _ if takes(rest, "false") => Value::Bool(false),
        other => panic!("{other} begins no value"),
    }
}

fn several<T>(rest: &mut &str, marks: (&str, &str), one: fn(&mut &str) -> T) -> Vec<T> {
    assert!(takes(rest, marks.0));
    let mut all = Vec::new();
    while !takes(rest, marks.1) {
        assert!(all.is_empty() || takes(rest, ","), "{rest}");
        all.push(one(rest));
    }
    all
}

fn field(rest: &mut &str) -> (String, Value) {
    let key = text(rest);
    assert!(takes(rest, ":"));
    (key, value(rest))
}

fn number(rest: &mut &str) -> Value {
    let end = rest.find(|c: char| !c.is_ascii_digit());
    let (digits, behind) = rest.split_at(end.unwrap_or(rest.len()));
    *rest = behind;
    Value::Number(digits.parse().unwrap())
}

fn text(rest: &mut &str) -> String {
    assert!(takes(rest, "\""), "{rest}");
    let mut text = String::new();
    while !takes(rest, "\"") {
        if takes(rest, "\\u") {
            let (digits, behind) = rest.split_at(4);
            let code = u32::from_str_radix(digits, 16).unwrap();
            text.push(char::from_u32(code).unwrap());
            *rest = behind;
        } else if takes(rest, "\\") {
            let c = rest.chars().next().unwrap();
            let at = "\"\\nrt".find(c).expect("an escape");
            text.push(b"\"\\\n\r\t"[at].into());
            *rest = &rest[1..];
        } else {
            let c = rest.chars().next().expect("a second quote mark");
            assert!(!c.is_control(), "{c:?}");
            text.push(c);
            *rest = &rest[c.len_utf8()..];
        }
    }
    text
}

/// The object that is said of a body.
fn told(body: impl AsRef<[u8]>) -> Value {
    let ran = piped(&["--format", "json", "-"], body);
    assert_eq!((ran.out.lines().count(), ran.err.as_str()), (1, ""));
    let value = parse(ran.out.trim_end());
    let passes = Value::Bool(ran.status == 0);
    assert_eq!(value.of("passes"), &passes);
    value
}

#[test]
fn a_pass() {
    let value = told("<a/>");
    assert_eq!(value.of("file"), &"-".into());
    assert_eq!(value.of("number"), &0.into());
    assert_eq!(value.of("message"), &"passes: 2 tokens, 4 bytes".into());
    for key in ["cause", "row", "byte", "line", "column"] {
        assert_eq!(value.of(key), &Value::Null, "{key}");
    }
    let Value::Object(fields) = value else {
        panic!()
    };
    assert_eq!(fields.len(), 9);
}

#[test]
fn numbers_causes_and_rows() {
    let deep = "<a>".repeat(257);
    let many = format!("<a>{}</a>", "<b/>".repeat(4_096));
    let long = format!("<a>{}</a>", "x".repeat(65_530));
    for (body, number, cause, row) in [
        ("<a><1/></a>", 9, "token", Some(2)),
        ("<a><b></a></b>", 9, "mismatched", Some(4)),
        ("<a>", 9, "unclosed", Some(2)),
        ("<a x='1' x='2'/>", 9, "repeated", Some(2)),
        ("<a>&zz;</a>", 9, "reference", Some(2)),
        ("", 4, "empty", None),
        (" ", 4, "no-element", None),
        (&deep, 1, "limit-open", None),
        (&many, 1, "limit-tokens", None),
        (&long, 1, "limit-bytes", None),
    ] {
        let value = told(body);
        assert_eq!(value.of("number"), &number.into(), "{cause}");
        assert_eq!(value.of("cause"), &cause.into());
        assert_eq!(
            value.of("row"),
            &row.map_or(Value::Null, Value::Number),
            "{cause}"
        );
    }
    let value = told("<a>\n &lt;\n<b x='µ &#+5; &zz;'/></a>");
    assert_eq!(place(&value), Some([19, 3, 9]));
    let value = told(b"<a>\n\xFF");
    assert_eq!(value.of("cause"), &"not-utf-8".into());
    assert_eq!(
        (value.of("number"), value.of("byte")),
        (&4.into(), &4.into())
    );
    assert_eq!(
        (value.of("line"), value.of("column")),
        (&2.into(), &1.into())
    );
}

#[test]
fn strings_are_escaped() {
    let value = told("<a>\n&\u{9B}\u{2028}\"\\\t;</a>");
    assert_eq!(value.of("cause"), &"reference".into());
    assert_eq!(value.of("message"), &"the reference &\u{9B} is bad".into());
    let folder = folder("json-names");
    let names: [(&[u8], &str); 3] = [
        (b"a\"b\\c\x1B\n.xml", "a\"b\\c\x1B\n.xml"),
        (b"L\xE4rche.xml", "L\u{FFFD}rche.xml"),
        ("年.xml".as_bytes(), "年.xml"),
    ];
    for (name, shown) in names {
        let name = OsStr::from_bytes(name);
        file(&folder, name, "<a/>");
        let words = [OsStr::new("--format=json"), OsStr::new("--"), name];
        let ran: Ran = program(&words)
            .current_dir(&folder)
            .output()
            .unwrap()
            .into();
        assert_eq!((ran.status, ran.out.lines().count()), (0, 1));
        assert_eq!(parse(ran.out.trim_end()).of("file"), &shown.into());
    }
    let lossy: Ran = upload(&[
        OsStr::new("--format=json"),
        folder.join(OsStr::from_bytes(b"L\xE4rche.xml")).as_os_str(),
    ]);
    assert!(lossy.out.contains(r"L\ufffdrche.xml"), "{}", lossy.out);
}

#[test]
fn one_object_a_file() {
    let files = ["samples/cores.xml", "samples/cores-cut.xml", "none.xml"];
    let ran = upload(&[&["--format", "json"][..], &files].concat());
    assert_eq!(ran.status, 2);
    let objects: Vec<Value> = ran.out.lines().map(parse).collect();
    let named: Vec<&Value> = objects.iter().map(|object| object.of("file")).collect();
    assert_eq!(named, [&files[0].into(), &files[1].into()]);
    assert!(ran.err.starts_with("upload: none.xml: "), "{}", ran.err);
}

#[test]
fn references_of_a_text() {
    let told = |text: &str| {
        let ran = upload(&["--format", "json", "--text", text]);
        (ran.status, parse(ran.out.trim_end()))
    };
    let (status, value) = told("&lt;\u{1F332}");
    assert_eq!((status, value.of("unescaped")), (0, &"<\u{1F332}".into()));
    assert_eq!(
        (value.of("valid"), value.of("number")),
        (&Value::Bool(true), &0.into())
    );
    assert_eq!((place(&value), value.of("refusal")), (None, &Value::Null));
    let (status, value) = told("µ\n &#0;");
    assert_eq!((status, value.of("unescaped")), (1, &"µ\n \0".into()));
    assert_eq!(value.of("number"), &7.into());
    assert_eq!(place(&value), Some([4, 2, 2]));
    assert_eq!(value.of("refusal"), &Value::Null);
    // unescaping takes the sign, and fails behind it
    let (status, value) = told("µ\n&#+65;&zz;");
    assert_eq!((status, value.of("unescaped")), (1, &Value::Null));
    assert_eq!(place(&value), Some([3, 2, 1]));
    let refusal = value.of("refusal");
    assert_eq!(refusal.of("number"), &7.into());
    assert_eq!(place(refusal), Some([9, 2, 7]));
}

/// The byte, line and column that an object tells; all are null where there is no place.
fn place(value: &Value) -> Option<[usize; 3]> {
    let Value::Object(fields) = value else {
        panic!("{value:?} is no object");
    };
    match ["byte", "line", "column"].map(|key| &fields[key]) {
        [Value::Null, Value::Null, Value::Null] => None,
        parts => Some(parts.map(|part| match part {
            Value::Number(number) => *number,
            other => panic!("{other:?} is no number"),
        })),
    }
}

/// What is said of the sample, read by its sheet.
fn read(words: &[&str]) -> Value {
    let sheet = ["--format", "json", "--sheet", "samples/cores.sheet"];
    let ran = upload(&[&sheet, words].concat());
    parse(ran.out.trim_end())
}

#[test]
fn entries_with_their_places() {
    let value = read(&["samples/cores.xml"]);
    assert_eq!(value.of("read"), &Value::Bool(true));
    assert_eq!(value.of("refusal"), &Value::Null);
    let entries = value.of("entries").items();
    let kinds: Vec<&Value> = entries.iter().map(|entry| entry.of("kind")).collect();
    let [text, piece, group] = ["text", "piece", "group"].map(Value::from);
    assert_eq!(kinds, [&text, &text, &text, &piece, &group]);
    assert_eq!(entries[0].of("name"), &"team".into());
    assert_eq!(entries[0].of("text"), &"north slope".into());
    assert_eq!(entries[3].of("member"), &3.into());
    assert_eq!(
        (entries[3].of("start"), entries[3].of("length")),
        (&246.into(), &204.into())
    );
    assert_eq!(
        (entries[3].of("line"), entries[3].of("column")),
        (&4.into(), &2.into())
    );
    assert_eq!(entries[4].of("pieces").items().len(), 5);
    assert_eq!(entries[3].of("below"), &Value::Null);
}

/// Each piece, however deep, stands where it is said: it begins with `<` and ends with `>`.
fn places_hold(body: &[u8], value: &Value, seen: &mut usize) {
    match value {
        Value::Array(items) => items.iter().for_each(|item| places_hold(body, item, seen)),
        Value::Object(fields) => {
            if let (Value::Number(start), Value::Number(length)) =
                (value.of("start"), value.of("length"))
            {
                let piece = &body[*start..start + length];
                assert!(piece.starts_with(b"<") && piece.ends_with(b">"));
                let before = std::str::from_utf8(&body[..*start]).unwrap();
                let line = before.rsplit('\n').next().unwrap();
                assert_eq!(value.of("line"), &before.split('\n').count().into());
                assert_eq!(value.of("column"), &(line.chars().count() + 1).into());
                *seen += 1;
            }
            fields
                .values()
                .for_each(|field| places_hold(body, field, seen));
        }
        _ => {}
    }
}

#[test]
fn every_level_below() {
    let value = read(&["--deep", "samples/cores.xml"]);
    let body = std::fs::read(root().join("samples/cores.xml")).unwrap();
    let mut seen = 0;
    places_hold(&body, &value, &mut seen);
    // the site and its place, 5 cores, 5 taken, 15 rings, 1 check
    assert_eq!(seen, 28);
    let cores = value.of("entries").items()[4].of("below").items();
    let unit = &cores[0].of("entries").items()[2];
    assert_eq!(
        (unit.of("name"), unit.of("text")),
        (&"unit".into(), &"µm".into())
    );
}

/// What was written before a refusal does not stand where a whole reading stands.
#[test]
fn a_refused_reading_has_no_entries() {
    let sheet = file(&folder("json-before"), "sheet", "strings s");
    let words = ["--format", "json", "--sheet", sheet.to_str().unwrap(), "-"];
    let ran = piped(&words, "<u><s>one</s><s><b/></s></u>");
    let value = parse(ran.out.trim_end());
    assert_eq!((ran.status, value.of("read")), (1, &Value::Bool(false)));
    assert_eq!(value.of("refusal").of("number"), &6.into());
    assert_eq!(value.of("entries"), &Value::Array(Vec::new()));
    assert_eq!(value.of("before").items()[0].of("text"), &"one".into());
}

#[test]
fn nothing_of_what_is_refused() {
    let value = read(&["--deep", "samples/cores-cut.xml"]);
    assert_eq!(value.of("read"), &Value::Bool(false));
    assert_eq!(value.of("entries"), &Value::Array(Vec::new()));
    assert_eq!(
        (value.of("number"), value.of("line")),
        (&9.into(), &30.into())
    );
}
