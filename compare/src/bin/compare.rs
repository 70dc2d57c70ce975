//! Asks the static library and the Rust the same questions and compares every
//! answer: numbers, lengths, bytes written and bytes left alone. The place of a 7, which
//! the Rust does not tell, stands beside the model's, of every text.
//!
//!     compare [--texts N] [--length L] [--seed S]
//!
//! N random texts (500000) and every text of up to L bytes (6). At the end stand the
//! counts of places; too few are a group that failed. The last line is `N passed, M
//! failed`, counted in groups; the status is 1 where one failed.

use compare::check::{Checker, Counts};
use compare::model::{places, Places};
use compare::random::Random;
use compare::tally::{finish, Tally};
use compare::texts::{self, BAD, GOOD, LAX, NOT_UTF8, PLAIN};
use oracle::hex::hex;

/// The alphabet of the exhaustive run. Within six bytes it reaches every branch
/// of src/unescape.rs that six bytes can reach: a text without `&`, an `&` with no
/// `;` before the next `&` or the end, each of the five names (so their ten
/// letters), names that are none, `#` and `#x`, no digits, a `+` where it is taken and
/// where not, digits of both radixes and of one only (`a`, `A`), a letter that is
/// no digit (`g`), values below 0x20 that are forbidden and not (0, 9, a), above
/// it (`&#90;`), of one and of two bytes in UTF-8 (`&#xAA;`). The last is two bytes
/// long: a boundary inside a character. Values that need more digits (surrogates,
/// beyond 0x10FFFF, beyond 32 bits) are in `PIECES` and in `every_code`.
const SYMBOLS: [&str; 19] = [
    "&", ";", "#", "x", "+", "0", "9", "A", "l", "t", "g", "a", "m", "p", "q", "u", "o", "s", "é",
];

/// Symbols of more bytes, for the branches that six bytes do not reach.
const PIECES: [&str; 22] = [
    "&",
    ";",
    "#",
    "#x",
    "+",
    "0",
    "lt",
    "D7FF",
    "D800",
    "DFFF",
    "E000",
    "FFFD",
    "FFFE",
    "10FFFF",
    "110000",
    "FFFFFFFF",
    "100000000",
    "55296",
    "1114111",
    "1114112",
    "4294967295",
    "4294967296",
];

/// One kind of texts. It passes when no text differs.
struct Group {
    tally: Tally,
    checker: Checker,
    random: Random,
}

impl Group {
    fn new(name: impl Into<String>) -> Self {
        Group {
            tally: Tally::new(name, "texts"),
            checker: Checker::default(),
            random: Random::new(1),
        }
    }

    fn rust(&mut self, text: &str) {
        let extra = 1 + self.random.below(24);
        let problem = self.checker.beside_rust(text, extra);
        self.count(text.as_bytes(), problem);
    }

    fn both(&mut self, text: &[u8]) {
        let extra = 1 + self.random.below(90);
        let problem = self.checker.beside_both(text, extra);
        self.count(text, problem);
    }

    fn utf8(&mut self, text: &[u8]) {
        let expected = std::str::from_utf8(text).is_ok();
        let alike = falzheod::is_utf8(text) == expected;
        self.count(text, (!alike).then(|| format!("is_utf8 is not {expected}")));
    }

    fn count(&mut self, text: &[u8], problem: Option<String>) {
        self.tally.count(problem, || hex(text));
    }

    /// Says what was found.
    fn end(self) -> Ended {
        let counts = self.checker.counts;
        let remark = match counts.texts {
            0 => String::new(),
            _ => format!(
                "unescape takes {}, validate {}; {} fail both at two places",
                counts.taken, counts.valid, counts.apart
            ),
        };
        Ended {
            alike: self.tally.end(&remark),
            counts,
        }
    }
}

/// A group that has ended: whether all was alike, and what was counted.
struct Ended {
    alike: bool,
    counts: Counts,
}

/// The least texts with a place, and of each sort of them.
const LEAST: u64 = 1_000_000;
const LEAST_OF_A_SORT: u64 = 50_000;

/// Says how many places were compared, and whether they are enough.
fn sizes(ended: &[Ended]) -> bool {
    let mut sum = Counts::default();
    ended.iter().for_each(|group| sum.merge(&group.counts));
    let (unescape, validate) = (sum.texts - sum.taken, sum.texts - sum.valid);
    // what validate takes unescape takes too
    let alone = sum.taken - sum.valid;
    println!(
        "places: {} texts, {unescape} with a place of unescape, {validate} of validate; \
         {} at two places, {alone} of validate alone",
        sum.texts, sum.apart
    );
    let enough = unescape >= LEAST && sum.apart.min(alone) >= LEAST_OF_A_SORT;
    if !enough {
        println!("TOO FEW: places: {LEAST} are wanted, and {LEAST_OF_A_SORT} of each sort");
    }
    enough
}

/// Texts and their places, of unescape and of validate, as a person reads them from
/// change request 1: the model is held to these.
const BY_HAND: [(&str, Option<usize>, Option<usize>); 12] = [
    ("", None, None),
    ("&lt;&#65;", None, None),
    ("a&b", Some(1), Some(1)),
    ("&#+65;&zz;", Some(6), Some(0)),
    ("&zz;&#+65;", Some(0), Some(0)),
    ("&lt;&#0;", None, Some(4)),
    ("&lt;&amp&gt;&", Some(4), Some(4)),
    ("&&lt;", Some(0), Some(0)),
    ("é;&#xD800;&", Some(3), Some(3)),
    ("&#xFFFE;&#x+41;&#x110000;&lt", Some(15), Some(0)),
    ("&amp;zz; &amp;#x+;&apos", Some(18), Some(18)),
    ("7 < 8 & 9", Some(6), Some(6)),
];

fn by_hand() -> Ended {
    let mut group = Group::new("places by hand");
    for (text, unescape, validate) in BY_HAND {
        group.both(text.as_bytes());
        let wanted = Places { unescape, validate };
        let model = places(text.as_bytes());
        let problem = (model != wanted).then(|| format!("the model says {model:?}"));
        group.count(text.as_bytes(), problem);
    }
    group.end()
}

/// Every text of up to `bytes` bytes over `SYMBOLS`.
fn every_text(bytes: usize) -> Ended {
    fn longer(group: &mut Group, text: &mut String, left: usize) {
        group.rust(text);
        for symbol in SYMBOLS {
            if symbol.len() <= left {
                text.push_str(symbol);
                longer(group, text, left - symbol.len());
                text.truncate(text.len() - symbol.len());
            }
        }
    }
    let mut group = Group::new(format!(
        "every text of up to {bytes} bytes over {} symbols",
        SYMBOLS.len()
    ));
    longer(&mut group, &mut String::new(), bytes);
    group.end()
}

/// Every text of up to `count` pieces.
fn every_row_of_pieces(count: usize) -> Ended {
    fn longer(group: &mut Group, text: &mut String, left: usize) {
        group.rust(text);
        for piece in PIECES.iter().filter(|_| left > 0) {
            text.push_str(piece);
            longer(group, text, left - 1);
            text.truncate(text.len() - piece.len());
        }
    }
    let mut group = Group::new(format!(
        "every text of up to {count} of {} pieces",
        PIECES.len()
    ));
    longer(&mut group, &mut String::new(), count);
    group.end()
}

/// Every text of up to `count` references, good, lax and bad, alone and parted.
fn every_row_of_references(count: usize) -> Ended {
    fn longer(group: &mut Group, text: &mut String, parted: &str, left: usize) {
        group.rust(text);
        for reference in texts::references().filter(|_| left > 0) {
            let length = text.len();
            text.push_str(parted);
            text.push_str(reference);
            longer(group, text, parted, left - 1);
            text.truncate(length);
        }
    }
    let mut group = Group::new(format!(
        "every text of up to {count} of {} references",
        texts::references().count()
    ));
    for parted in ["", "7µ;"] {
        longer(&mut group, &mut String::new(), parted, count);
    }
    group.end()
}

/// Every code from 0 to past the last, in each spelling.
fn every_code() -> Ended {
    let mut group = Group::new("every code, decimal and hexadecimal");
    for code in 0..=0x1100FF {
        group.rust(&texts::coded(code, 0, ""));
        group.rust(&texts::coded(code, 1 + (code % 3) as usize, ""));
    }
    group.end()
}

/// Every byte in the place of each byte of each reference, and before it.
fn every_byte() -> Ended {
    let mut group = Group::new("every byte at every place of a reference");
    for reference in texts::references() {
        for at in 0..reference.len() {
            for byte in 0..=u8::MAX {
                let mut text = reference.as_bytes().to_vec();
                text[at] = byte;
                group.both(&text);
                text[at] = reference.as_bytes()[at];
                text.insert(at, byte);
                group.both(&text);
            }
        }
    }
    group.end()
}

/// One reference behind 0 to 200 bytes and before some, so that it stands at
/// every place of a block of 16 or 64 bytes and across its edge.
fn every_offset() -> Ended {
    let mut group = Group::new("one reference at every offset to 200");
    let behind = [0, 1, 2, 15, 16, 17, 63, 64, 65, 130];
    for plain in PLAIN {
        let run = plain.repeat(200);
        for (count, reference) in texts::references().enumerate() {
            for offset in (0..=200).filter(|offset| offset % plain.len() == 0) {
                let rest = behind[(offset + count) % behind.len()] * plain.len();
                group.rust(&[&run[..offset], reference, &run[..rest]].concat());
            }
        }
    }
    group.end()
}

/// Two references with 0 to 200 bytes between them, the second of any kind.
fn every_distance() -> Ended {
    let mut group = Group::new("two references at every distance to 200");
    for plain in PLAIN {
        let run = plain.repeat(200);
        for (count, second) in texts::references().enumerate() {
            let first = GOOD[count % GOOD.len()];
            for distance in (0..=200).filter(|distance| distance % plain.len() == 0) {
                group.rust(&[first, &run[..distance], second].concat());
            }
        }
    }
    group.end()
}

/// Random and damaged texts, `count` of them UTF-8 and so put to the Rust.
fn random_texts(count: u64, seed: u64) -> Ended {
    let mut group = Group::new("random and damaged texts");
    let mut random = Random::new(seed);
    let mut asked = 0;
    while asked < count {
        let text = texts::random(&mut random);
        asked += u64::from(std::str::from_utf8(&text).is_ok());
        group.both(&text);
    }
    group.tally.name += &format!(" ({asked} put to the Rust, the others are not UTF-8)");
    group.end()
}

/// Random texts that are not UTF-8, beside the model.
fn random_bytes(count: u64, seed: u64) -> Ended {
    let mut group = Group::new("random texts that are not UTF-8, beside the model");
    let mut random = Random::new(seed ^ 0xFF);
    for _ in 0..count {
        group.both(&texts::random_bytes(&mut random));
    }
    group.end()
}

/// is_utf8 on every sequence of up to three bytes, and on those of four bytes that
/// are on either side of a bound of table 3-7.
fn short_utf8() -> Ended {
    let mut group =
        Group::new("is_utf8 on every sequence of up to 3 bytes, and of 4 at the bounds");
    group.utf8(b"");
    for code in 0..=0xFF_FFFF_u32 {
        let bytes = code.to_be_bytes();
        group.utf8(&bytes[1..]);
        if code <= 0xFFFF {
            group.utf8(&bytes[2..]);
        }
        if code <= 0xFF {
            group.utf8(&bytes[3..]);
        }
    }
    let bounds = *b"\x00a\x7F\x80\x81\x8F\x90\x9F\xA0\xBE\xBF\xC0\xC1\xC2\xDF\xE0\xE1\xEC\xED\xEE\xEF\xF0\xF1\xF3\xF4\xF5\xFF";
    for first in bounds {
        for second in bounds {
            for third in bounds {
                bounds
                    .iter()
                    .for_each(|fourth| group.utf8(&[first, second, third, *fourth]));
            }
        }
    }
    group.end()
}

/// is_utf8 on long texts with one character, whole or damaged, at each offset.
fn long_utf8() -> Ended {
    let mut group = Group::new("is_utf8 on long texts with one character at every offset to 200");
    let whole = [
        "\x7F",
        "\u{80}",
        "\u{7FF}",
        "\u{800}",
        "\u{D7FF}",
        "\u{E000}",
        "\u{FFFF}",
        "\u{10000}",
        "\u{10FFFF}",
    ];
    let all = whole
        .iter()
        .map(|character| character.as_bytes())
        .chain(NOT_UTF8);
    for character in all {
        for offset in 0..=200 {
            for behind in [0, 1, 2, 3, 7, 8, 15, 16, 31, 32, 63, 64, 100] {
                for plain in ["a", "é"] {
                    let run = plain.repeat(200);
                    let text = [
                        &run.as_bytes()[..offset],
                        character,
                        &run.as_bytes()[..behind],
                    ]
                    .concat();
                    group.utf8(&text);
                }
            }
        }
    }
    group.end()
}

/// The arguments, or what is wrong with them.
fn arguments() -> Result<(u64, usize, u64), String> {
    let (mut texts, mut length, mut seed) = (500_000, 6, 20_260_701);
    let mut words = std::env::args().skip(1);
    while let Some(word) = words.next() {
        let value = words.next().and_then(|value| value.parse::<u64>().ok());
        match (word.as_str(), value) {
            ("--texts", Some(value)) => texts = value,
            ("--length", Some(value)) => length = value as usize,
            ("--seed", Some(value)) => seed = value,
            _ => return Err("compare [--texts N] [--length L] [--seed S]".to_string()),
        }
    }
    Ok((texts, length, seed))
}

fn main() {
    let (count, length, seed) = arguments().unwrap_or_else(|usage| {
        eprintln!("usage: {usage}");
        std::process::exit(2);
    });
    println!(
        "seed {seed}, {} references good, {} lax, {} bad",
        GOOD.len(),
        LAX.len(),
        BAD.len()
    );
    let ended = [
        by_hand(),
        every_text(length),
        every_row_of_pieces(length.saturating_sub(1)),
        every_row_of_references(3),
        every_code(),
        every_byte(),
        every_offset(),
        every_distance(),
        random_texts(count, seed),
        random_bytes(count / 4, seed),
        short_utf8(),
        long_utf8(),
    ];
    let mut groups: Vec<bool> = ended.iter().map(|group| group.alike).collect();
    groups.push(sizes(&ended));
    finish(&groups);
}
