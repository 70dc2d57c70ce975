//! Document 01 on references, for texts of any bytes: what it says of
//! src/unescape.rs, byte by byte. Written from 01 alone, neither from the Rust
//! nor from Falzheod, to stand in for the Rust on texts that its `&str` cannot hold.
//! The places of a text are change request 1's, which the Rust does not tell: said of
//! each `&` by itself, not by the walk that unescapes.

/// One reference that was read: its code, and whether 01 calls it valid.
struct Reference {
    code: u32,
    valid: bool,
    /// Its length in bytes, with `&` and `;`.
    length: usize,
}

/// The unescaped text, or `None` for number 7.
pub fn unescape(text: &[u8]) -> Option<Vec<u8>> {
    let mut out = Vec::with_capacity(text.len());
    let mut at = 0;
    while at < text.len() {
        if text[at] == b'&' {
            let reference = reference(&text[at..])?;
            push_utf8(&mut out, reference.code);
            at += reference.length;
        } else {
            out.push(text[at]);
            at += 1;
        }
    }
    Some(out)
}

/// Whether every reference is valid; `false` is number 7.
pub fn validate(text: &[u8]) -> bool {
    let mut at = 0;
    while at < text.len() {
        if text[at] == b'&' {
            match reference(&text[at..]) {
                Some(reference) if reference.valid => at += reference.length,
                _ => return false,
            }
        } else {
            at += 1;
        }
    }
    true
}

/// Where a text fails: "the place of the first failing `&`, counted from the start of
/// the text they got"; `None` where the number is not 7.
#[derive(Clone, Copy, Debug, PartialEq, Eq)]
pub struct Places {
    pub unescape: Option<usize>,
    pub validate: Option<usize>,
}

pub fn places(text: &[u8]) -> Places {
    Places {
        unescape: first_failing(text, |_| true),
        validate: first_failing(text, |reference| reference.valid),
    }
}

/// The first `&` at which no reference begins that is taken. None is inside another: a
/// reference ends before the next `&`.
fn first_failing(text: &[u8], is_taken: impl Fn(Reference) -> bool) -> Option<usize> {
    let mut ampersands = (0..text.len()).filter(|at| text[*at] == b'&');
    ampersands.find(|at| !reference(&text[*at..]).is_some_and(&is_taken))
}

/// Whether a place may be told of `text`: an `&` stands there if the answer is 7, and it
/// is 0 if not.
pub fn may_be_told(text: &[u8], is_seven: bool, place: usize) -> bool {
    if is_seven {
        text.get(place) == Some(&b'&')
    } else {
        place == 0
    }
}

/// The reference that `text` begins with (its first byte is `&`), if
/// `unescape` takes it. What `validate` takes `unescape` takes too.
fn reference(text: &[u8]) -> Option<Reference> {
    let mut end = 1;
    while *text.get(end)? != b';' {
        if text[end] == b'&' {
            return None;
        }
        end += 1;
    }
    let (code, valid) = match &text[1..end] {
        b"lt" => (0x3C, true),
        b"gt" => (0x3E, true),
        b"amp" => (0x26, true),
        b"quot" => (0x22, true),
        b"apos" => (0x27, true),
        [b'#', b'x', digits @ ..] => number(digits, 16)?,
        [b'#', digits @ ..] => number(digits, 10)?,
        _ => return None,
    };
    Some(Reference {
        code,
        valid,
        length: end + 1,
    })
}

/// An optional `+` and one or more digits, for a Unicode scalar value. It is
/// valid without the `+` and where the code is a character of XML 1.0, 2.2.
fn number(text: &[u8], radix: u64) -> Option<(u32, bool)> {
    let signed = text.first() == Some(&b'+');
    let digits = if signed { &text[1..] } else { text };
    if digits.is_empty() {
        return None;
    }
    let mut code: u64 = 0;
    for byte in digits {
        let digit = match byte {
            b'0'..=b'9' => byte - b'0',
            b'a'..=b'f' if radix == 16 => byte - b'a' + 10,
            b'A'..=b'F' if radix == 16 => byte - b'A' + 10,
            _ => return None,
        };
        code = code * radix + u64::from(digit);
        if code > 0x10FFFF {
            return None;
        }
    }
    if (0xD800..=0xDFFF).contains(&code) {
        return None;
    }
    let forbidden =
        (code < 0x20 && ![0x9, 0xA, 0xD].contains(&code)) || code == 0xFFFE || code == 0xFFFF;
    Some((code as u32, !signed && !forbidden))
}

/// Unicode, table 3-6.
fn push_utf8(out: &mut Vec<u8>, code: u32) {
    let tail = |shift: u32| 0x80 | (code >> shift & 0x3F) as u8;
    match code {
        0..=0x7F => out.push(code as u8),
        0x80..=0x7FF => out.extend([0xC0 | (code >> 6) as u8, tail(0)]),
        0x800..=0xFFFF => out.extend([0xE0 | (code >> 12) as u8, tail(6), tail(0)]),
        _ => out.extend([0xF0 | (code >> 18) as u8, tail(12), tail(6), tail(0)]),
    }
}
