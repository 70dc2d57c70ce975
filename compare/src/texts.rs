//! Texts to ask about: fragments good, lax and bad (as oracle/py/gen.py has
//! them), numbers around every bound, plain runs, and damage.

use crate::random::Random;

/// Taken by validate and unescape.
pub const GOOD: [&str; 18] = [
    "&lt;",
    "&gt;",
    "&amp;",
    "&quot;",
    "&apos;",
    "&#65;",
    "&#x41;",
    "&#x10FFFF;",
    "&#9;",
    "&#xA;",
    "&#xd;",
    "&#x20;",
    "&#xD7FF;",
    "&#xE000;",
    "&#xFFFD;",
    "&#x10000;",
    "&#000000000000065;",
    "&#1114111;",
];

/// Taken by unescape alone.
pub const LAX: [&str; 9] = [
    "&#+65;",
    "&#x+41;",
    "&#0;",
    "&#x0;",
    "&#xFFFE;",
    "&#xFFFF;",
    "&#8;",
    "&#31;",
    "&#+00000000000009;",
];

/// Taken by neither.
pub const BAD: [&str; 30] = [
    "&zz;",
    "&",
    "&#;",
    "&#x;",
    "&#xD800;",
    "&#xDFFF;",
    "&#x110000;",
    "&lt",
    "&;",
    "&#X41;",
    "&#-1;",
    "&#4294967295;",
    "&#4294967296;",
    "&#+;",
    "&#x+;",
    "&#++1;",
    "&LT;",
    "& amp;",
    "&#6é5;",
    "&amp&lt;",
    "&#xG;",
    "&#1a;",
    "&#x100000000;",
    "&l;",
    "&ltt;",
    "&apo;",
    "&quote;",
    "&#x-0;",
    "&#1+;",
    "&# 1;",
];

/// The texts that document 01 marks P.
pub const MARKED: [&str; 8] = [
    "&#x41;&lt;",
    "&#+65;",
    "&#0;",
    "&#xD800;",
    "&#x110000;",
    "&#x10FFFF;",
    "&#xFFFE;",
    "a&b",
];

/// Runs without a reference. Some are near misses for a search that looks at
/// whole blocks: the neighbours of `&`, and `&` with its highest bit set.
pub const PLAIN: [&str; 8] = ["a", "%'", "¦", ";", "é", "€", "🌲", "core 7; "];

/// Where the answer of a numeric reference changes.
pub const BOUNDS: [u64; 15] = [
    0x0,
    0x9,
    0xA,
    0xD,
    0x20,
    0x80,
    0x800,
    0xD800,
    0xE000,
    0xFFFE,
    0x10000,
    0x110000,
    0x7FFF_FFFF,
    0xFFFF_FFFF,
    0x1_0000_0000,
];

/// All fragments with an `&`.
pub fn references() -> impl Iterator<Item = &'static str> {
    GOOD.into_iter().chain(LAX).chain(BAD)
}

/// The numeric reference of `code` in one of its spellings, 0 to 3 each.
pub fn coded(code: u64, spelling: usize, before: &str) -> String {
    match spelling {
        0 => format!("&#{before}{code};"),
        1 => format!("&#x{before}{code:x};"),
        2 => format!("&#x{before}{code:X};"),
        _ => format!("&#x{before}0{code:x};"),
    }
}

/// How much goes wrong in a text.
#[derive(Clone, Copy, PartialEq)]
enum Trouble {
    None,
    Lax,
    /// One bad reference among good ones: the whole text is read before it.
    One,
    Much,
}

/// A text of up to a few thousand bytes, mostly UTF-8.
pub fn random(random: &mut Random) -> Vec<u8> {
    let trouble = [
        Trouble::None,
        Trouble::None,
        Trouble::Lax,
        Trouble::One,
        Trouble::Much,
    ][random.below(5)];
    let most = [12, 40, 40, 150, 150, 300, 300, 300, 1_500, 6_000][random.below(10)];
    let length = random.below(most);
    let run = [1, 4, 20, 150, 700][random.below(5)];
    let mut text = String::new();
    while text.len() < length {
        push_plain(&mut text, random, run);
        push_reference(&mut text, random, trouble);
    }
    if trouble == Trouble::One {
        let mut at = random.below(text.len() + 1);
        while !text.is_char_boundary(at) {
            at -= 1;
        }
        text.insert_str(at, random.pick(&BAD));
    }
    let mut text = text.into_bytes();
    if random.chance(35) {
        damage(&mut text, random);
    }
    text
}

fn push_plain(text: &mut String, random: &mut Random, most: usize) {
    let plain = random.pick(&PLAIN);
    for _ in 0..random.below(most + 1) {
        text.push_str(if random.chance(5) {
            random.pick(&PLAIN)
        } else {
            plain
        });
    }
}

fn push_reference(text: &mut String, random: &mut Random, trouble: Trouble) {
    match trouble {
        Trouble::Lax if random.chance(30) => text.push_str(random.pick(&LAX)),
        Trouble::Much if random.chance(20) => text.push_str(random.pick(&BAD)),
        Trouble::Much if random.chance(40) => {
            let code = near_bound(random);
            let before = ["", "", "0", "+", "++", "-"][random.below(6)];
            text.push_str(&coded(code, random.below(4), before));
        }
        Trouble::Much if random.chance(10) => push_digits(text, random),
        _ if random.chance(50) => text.push_str(random.pick(&GOOD)),
        _ => {
            let zeros = if random.chance(20) {
                random.below(40)
            } else {
                0
            };
            text.push_str(&coded(
                good_code(random),
                random.below(4),
                &"0".repeat(zeros),
            ));
        }
    }
}

/// A number at or beside a bound, or any up to a little over 32 bits.
pub fn near_bound(random: &mut Random) -> u64 {
    if random.chance(20) {
        return random.between(0, 0x1_0000_0FFF);
    }
    let bound = BOUNDS[random.below(BOUNDS.len())];
    (bound + random.between(0, 4)).saturating_sub(2)
}

/// The code of a character of XML 1.0.
fn good_code(random: &mut Random) -> u64 {
    let ranges = [
        (0x20, 0x7F),
        (0x80, 0x7FF),
        (0x800, 0xD7FF),
        (0xE000, 0xFFFD),
        (0x10000, 0x10FFFF),
    ];
    let (low, high) = ranges[random.below(ranges.len())];
    random.between(low, high)
}

/// A numeric reference with a long run of digits.
fn push_digits(text: &mut String, random: &mut Random) {
    text.push_str(random.pick(&["&#", "&#x", "&#+", "&#x+"]));
    for _ in 0..random.below(60) {
        text.push(char::from(b'0' + random.below(10) as u8));
    }
    text.push(';');
}

/// Deletes, doubles, replaces, inserts or cuts, once to three times.
pub fn damage(text: &mut Vec<u8>, random: &mut Random) {
    for _ in 0..=random.below(3) {
        if text.is_empty() {
            return;
        }
        let at = random.below(text.len());
        let end = text.len().min(at + 1 + random.below(6));
        match random.below(7) {
            0 => text.truncate(at),
            1 => drop(text.drain(at..end)),
            2 => drop(text.drain(..at)),
            3 => {
                let again = text[at..end].to_vec();
                text.splice(at..at, again);
            }
            4 => text[at] = b"&;#x+0-9AfglDt\0\x7f"[random.below(16)],
            5 => text.insert(at, b"&;#x+0-9AfglDt %"[random.below(16)]),
            _ => text[at] = random.below(256) as u8,
        }
    }
}

/// Bytes that are not UTF-8 wherever they stand.
pub const NOT_UTF8: [&[u8]; 10] = [
    b"\xFF",
    b"\xC3",
    b"\x80",
    b"\xA6",
    b"\xED\xA0\x80",
    b"\xF4\x90\x80\x80",
    b"\xC0\x80",
    b"\xE2\x82",
    b"\xF0\x9F\x8C",
    b"\xF5\x80\x80\x80",
];

/// A text that is not UTF-8, with references of all kinds.
pub fn random_bytes(random: &mut Random) -> Vec<u8> {
    let mut text = self::random(random);
    loop {
        let at = random.below(text.len() + 1);
        let bytes = random.pick(&NOT_UTF8);
        text.splice(at..at, bytes.iter().copied());
        if std::str::from_utf8(&text).is_err() {
            return text;
        }
    }
}
