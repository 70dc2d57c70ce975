//! The words of a line of a sheet: bare, or in quotes with `\"`, `\\` and `\xHH`.

use super::Problem;
use crate::files::MARK;
use crate::visible::visible_bytes;
use falzheod::MOST_NAME_BYTES;

/// A word. One in quotes is a name, never a word of the format.
#[derive(Clone, Debug, PartialEq, Eq)]
pub struct Word {
    pub bytes: Vec<u8>,
    pub is_quoted: bool,
}

/// The words of a line that has any, from the next on.
pub struct Line {
    pub number: usize,
    words: std::vec::IntoIter<Word>,
}

impl Line {
    /// The lines of a text that have a word.
    pub fn all(text: &[u8]) -> Result<Vec<Line>, Problem> {
        let text = text.strip_prefix(MARK).unwrap_or(text);
        let mut lines = Vec::new();
        for (number, line) in (1..).zip(lines_of(text)) {
            let line = std::str::from_utf8(line).map_err(|_| (number, "not UTF-8".to_string()))?;
            let words = words(line).map_err(|problem| (number, problem))?;
            if !words.is_empty() {
                let words = words.into_iter();
                lines.push(Line { number, words });
            }
        }
        Ok(lines)
    }

    pub fn wrong<T>(&self, problem: impl Into<String>) -> Result<T, Problem> {
        Err((self.number, problem.into()))
    }

    /// The next word if it is this one of the format.
    pub fn takes(&mut self, keyword: &str) -> bool {
        let is_next = self.is_next(keyword);
        if is_next {
            self.words.next();
        }
        is_next
    }

    pub fn is_next(&self, keyword: &str) -> bool {
        let next = self.words.as_slice().first();
        next.is_some_and(|word| !word.is_quoted && word.bytes == keyword.as_bytes())
    }

    /// A name of 1 to 255 bytes.
    pub fn name(&mut self, what: &str) -> Result<Vec<u8>, Problem> {
        if self.is_next("-") {
            return self.wrong(format!("the {what} is none; in quotes \"-\" is a name"));
        }
        match self.words.next() {
            None => self.wrong(format!("the {what} is missing")),
            Some(word) if word.bytes.is_empty() => self.wrong(format!("the {what} is empty")),
            Some(word) if word.bytes.len() > MOST_NAME_BYTES => self.wrong(format!(
                "the {what} has {} bytes, and {MOST_NAME_BYTES} is the most",
                word.bytes.len()
            )),
            Some(word) => Ok(word.bytes),
        }
    }

    /// A name, or none where `-` stands.
    pub fn name_or_none(&mut self, what: &str) -> Result<Option<Vec<u8>>, Problem> {
        if self.takes("-") {
            return Ok(None);
        }
        self.name(what).map(Some)
    }

    /// A name that may be left out.
    pub fn name_if_any(&mut self, what: &str) -> Result<Option<Vec<u8>>, Problem> {
        if self.words.len() == 0 || self.is_next("named") || self.is_next("by") {
            return Ok(None);
        }
        self.name_or_none(what)
    }

    /// A name behind this word, if the word is next.
    pub fn name_behind(&mut self, keyword: &str) -> Result<Option<Vec<u8>>, Problem> {
        let stands = self.takes(keyword);
        stands
            .then(|| self.name(&format!("name behind {keyword}")))
            .transpose()
    }

    /// Nothing else stands in the line.
    pub fn end(mut self, may_follow: &str) -> Result<(), Problem> {
        match self.words.next() {
            None => Ok(()),
            Some(word) => {
                let word = visible_bytes(&word.bytes);
                self.wrong(format!("{word} is not expected here, but {may_follow}"))
            }
        }
    }

    /// The next word, for a message.
    pub fn shown(&self) -> String {
        let next = self.words.as_slice().first();
        next.map_or(String::new(), |word| visible_bytes(&word.bytes))
    }
}

/// The lines of a text, which end in LF, CR LF or a lone CR.
fn lines_of(text: &[u8]) -> Vec<&[u8]> {
    let mut lines = Vec::new();
    for line in text.split(|byte| *byte == b'\n') {
        lines.extend(
            line.strip_suffix(b"\r")
                .unwrap_or(line)
                .split(|byte| *byte == b'\r'),
        );
    }
    lines
}

/// The words of a line up to its `#`.
fn words(line: &str) -> Result<Vec<Word>, String> {
    let mut words = Vec::new();
    let mut rest = line.trim_start();
    while let Some(first) = rest.chars().next().filter(|c| *c != '#') {
        let (word, behind) = if first == '"' {
            quoted(&rest[1..])?
        } else {
            bare(rest)
        };
        let ends = |c: char| c.is_whitespace() || c == '#';
        if !behind.is_empty() && !behind.starts_with(ends) {
            return Err("white space is missing at a quote mark".to_string());
        }
        words.push(word);
        rest = behind.trim_start();
    }
    Ok(words)
}

fn bare(rest: &str) -> (Word, &str) {
    let is_end = |c: char| c.is_whitespace() || c == '#' || c == '"';
    let end = rest.find(is_end).unwrap_or(rest.len());
    let word = Word {
        bytes: rest.as_bytes()[..end].to_vec(),
        is_quoted: false,
    };
    (word, &rest[end..])
}

/// A word behind its first quote mark, up to the second.
fn quoted(rest: &str) -> Result<(Word, &str), String> {
    let mut bytes = Vec::new();
    let mut at = 0;
    while let Some(c) = rest[at..].chars().next() {
        match c {
            '"' => {
                let is_quoted = true;
                return Ok((Word { bytes, is_quoted }, &rest[at + 1..]));
            }
            '\\' => {
                let (byte, length) = escaped(&rest[at..])?;
                bytes.push(byte);
                at += length;
            }
            c => {
                bytes.extend_from_slice(c.encode_utf8(&mut [0; 4]).as_bytes());
                at += c.len_utf8();
            }
        }
    }
    Err("the second quote mark is missing".to_string())
}

/// The byte of an escape, and how many bytes the escape has.
fn escaped(rest: &str) -> Result<(u8, usize), String> {
    let bytes = rest.as_bytes();
    match bytes.get(1) {
        Some(byte @ (b'"' | b'\\')) => Ok((*byte, 2)),
        Some(b'x') => {
            let digits = rest.get(2..4).unwrap_or_default();
            let is_hex = digits.len() == 2 && digits.bytes().all(|b| b.is_ascii_hexdigit());
            let byte = is_hex
                .then(|| u8::from_str_radix(digits, 16).ok())
                .flatten();
            byte.map(|byte| (byte, 4))
                .ok_or(r"behind \x stand two hexadecimal digits".to_string())
        }
        _ => Err(r#"behind \ stands ", \ or x"#.to_string()),
    }
}
