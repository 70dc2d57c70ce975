//! The words of the command line.

use crate::files::Source;
use crate::visible::visible_bytes;
use std::ffi::{OsStr, OsString};
use std::os::unix::ffi::{OsStrExt, OsStringExt};

pub const USAGE: &str = "\
usage: upload [--format text|json] [--sheet SHEET [--deep]] [--] FILE...
       upload [--format text|json] --text TEXT
       upload --sheet-bytes SHEET
       upload --sheet-text HEX structure|list|strings|map
       upload --help";

/// How findings are written.
#[derive(Clone, Copy, Debug, PartialEq, Eq)]
pub enum Format {
    Text,
    Json,
}

/// What is asked for.
pub enum Job {
    Help,
    Files(Files),
    Text(Vec<u8>, Format),
    SheetBytes(Source),
    SheetText(OsString, OsString),
}

/// Files to be checked, or read by a sheet.
pub struct Files {
    pub files: Vec<Source>,
    pub format: Format,
    pub sheet: Option<Source>,
    pub deep: bool,
}

/// The words as they were given.
#[derive(Default)]
struct Given {
    help: bool,
    format: Option<OsString>,
    sheet: Option<OsString>,
    deep: bool,
    text: Option<OsString>,
    sheet_bytes: Option<OsString>,
    sheet_text: Option<OsString>,
    files: Vec<OsString>,
}

/// The job that the words ask for, or what is wrong with them.
pub fn parse(words: Vec<OsString>) -> Result<Job, String> {
    let given = given(words)?;
    if given.help {
        return Ok(Job::Help);
    }
    let format = format(given.format.as_deref())?;
    let other_jobs = [&given.text, &given.sheet_bytes, &given.sheet_text];
    match other_jobs.iter().filter(|word| word.is_some()).count() {
        0 => files(given, format),
        1 => other(given, format),
        _ => Err("--text, --sheet-bytes and --sheet-text are each for itself".to_string()),
    }
}

fn given(words: Vec<OsString>) -> Result<Given, String> {
    let mut given = Given::default();
    let mut words = words.into_iter();
    while let Some(word) = words.next() {
        let (name, joined) = option(&word);
        match name {
            b"--" => {
                given.files.extend(words);
                break;
            }
            b"-h" | b"--help" => flag(&mut given.help, joined)?,
            b"--deep" => flag(&mut given.deep, joined)?,
            b"--format" => value(&mut given.format, joined, &mut words, "--format")?,
            b"--sheet" => value(&mut given.sheet, joined, &mut words, "--sheet")?,
            b"--text" => value(&mut given.text, joined, &mut words, "--text")?,
            b"--sheet-bytes" => value(&mut given.sheet_bytes, joined, &mut words, "--sheet-bytes")?,
            b"--sheet-text" => value(&mut given.sheet_text, joined, &mut words, "--sheet-text")?,
            _ if is_option(&word) => return Err(format!("unknown option {}", shown(&word))),
            _ => given.files.push(word),
        }
    }
    Ok(given)
}

/// A word that begins with `-`, and is not `-` alone.
fn is_option(word: &OsStr) -> bool {
    word.len() > 1 && word.as_bytes()[0] == b'-'
}

/// The name of an option, and what stands behind its `=`.
fn option(word: &OsStr) -> (&[u8], Option<OsString>) {
    let bytes = word.as_bytes();
    match bytes.iter().position(|byte| *byte == b'=') {
        Some(at) if bytes.starts_with(b"--") => (
            &bytes[..at],
            Some(OsString::from_vec(bytes[at + 1..].to_vec())),
        ),
        _ => (bytes, None),
    }
}

fn flag(flag: &mut bool, joined: Option<OsString>) -> Result<(), String> {
    *flag = true;
    match joined {
        Some(_) => Err("--help and --deep take no value".to_string()),
        None => Ok(()),
    }
}

fn value(
    place: &mut Option<OsString>,
    joined: Option<OsString>,
    words: &mut impl Iterator<Item = OsString>,
    name: &str,
) -> Result<(), String> {
    let value = joined.or_else(|| words.next());
    let value = value.ok_or(format!("{name} wants a word behind it"))?;
    match place.replace(value) {
        Some(_) => Err(format!("{name} is given twice")),
        None => Ok(()),
    }
}

fn format(word: Option<&OsStr>) -> Result<Format, String> {
    match word.map(OsStr::as_bytes) {
        None | Some(b"text") => Ok(Format::Text),
        Some(b"json") => Ok(Format::Json),
        Some(other) => Err(format!(
            "--format is text or json, not {}",
            visible_bytes(other)
        )),
    }
}

fn files(given: Given, format: Format) -> Result<Job, String> {
    if given.files.is_empty() {
        return Err("no file is named".to_string());
    }
    if given.deep && given.sheet.is_none() {
        return Err("--deep wants a --sheet".to_string());
    }
    let inputs = given.files.iter().chain(&given.sheet);
    if inputs.filter(|word| *word == "-").count() > 1 {
        return Err("standard input is read once".to_string());
    }
    Ok(Job::Files(Files {
        files: given.files.iter().map(|word| Source::of(word)).collect(),
        format,
        sheet: given.sheet.as_deref().map(Source::of),
        deep: given.deep,
    }))
}

/// A job that takes no files.
fn other(given: Given, format: Format) -> Result<Job, String> {
    if given.deep || given.sheet.is_some() {
        return Err("--sheet and --deep are for files".to_string());
    }
    if given.format.is_some() && given.text.is_none() {
        return Err("--format is for files and for --text".to_string());
    }
    let mut words = given.files;
    let job = match (given.text, given.sheet_bytes, given.sheet_text) {
        (Some(text), ..) => Job::Text(text.into_vec(), format),
        (_, Some(sheet), _) => Job::SheetBytes(Source::of(&sheet)),
        (.., hex) if words.is_empty() => {
            let hex = hex.as_deref().map(shown).unwrap_or_default();
            return Err(format!("--sheet-text {hex} wants a kind behind it"));
        }
        (.., hex) => Job::SheetText(hex.unwrap_or_default(), words.remove(0)),
    };
    match words.first() {
        Some(word) => Err(format!("{} is too much", shown(word))),
        None => Ok(job),
    }
}

fn shown(word: &OsStr) -> String {
    visible_bytes(word.as_bytes())
}
