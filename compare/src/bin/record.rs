//! Writes the Rust's answers for some two thousand texts, two lines each, for a
//! thousand bodies, and for eight thousand readings, for crates/replay to replay without
//! the Rust:
//!
//!     v TEXT N            validate_references: 0 or 7
//!     u TEXT N [RESULT]   unescape: 0 and its result, or 7
//!     d BODY END ROWS N [ROW CAUSE]   the strict drain: 0, or 9 with row and cause
//!     K BODY END ROWS SHEET FLAGS MAXIMUM DEPTH N ENTRIES TEXTS   a reading: K is s
//!         structure, l list, m map, t string list (where it is refused without ENTRIES
//!         and TEXTS, which the Rust does not show)
//!     K BODY END ROWS FLAGS DEPTH N [VALUE]   a scalar: K is b boolean, i integer,
//!         w string
//!     f BODY END ROWS NAME N [START LENGTH]   find
//!
//! TEXT, RESULT, BODY, SHEET, NAME and TEXTS in hexadecimal, `-` for none. ROWS are all
//! numbers of the table's rows in decimal, parted by commas, `-` for none; ENTRIES are
//! those of the entries, groups by rising member index, with 0 for a place, which the Rust
//! does not tell. The same every time.

use compare::bodies::{self, nested, start_tag};
use compare::drains::of_rust;
use compare::random::Random;
use compare::recorded::{drain_line, Readings};
use compare::texts::{self, BOUNDS, MARKED, PLAIN};
use oracle::hex::hex;
use std::collections::HashSet;
use std::io::{BufWriter, Write};

const TEXTS: usize = 2_000;
const BODIES: usize = 1_000;

/// Lines are shorter than this, for replay to hold one.
const LONGEST_LINE: usize = 1_000;

/// The longest text or body, in bytes. Most are shorter, to keep the file small.
const LONGEST: usize = 120;
const MOSTLY: usize = 40;

/// The texts in the order of the file, each once.
#[derive(Default)]
struct Texts {
    seen: HashSet<String>,
    list: Vec<String>,
}

impl Texts {
    fn add(&mut self, text: String) {
        if text.len() <= LONGEST && self.seen.insert(text.clone()) {
            self.list.push(text);
        }
    }

    /// Document 01's texts, every fragment alone and between plain text.
    fn add_fragments(&mut self) {
        self.add(String::new());
        for text in MARKED.into_iter().chain(PLAIN).chain(texts::references()) {
            self.add(text.to_string());
        }
        for text in texts::references() {
            self.add(format!("7{text};µ"));
        }
    }

    /// Codes at and beside every bound, in each spelling.
    fn add_bounds(&mut self) {
        let before = ["", "0", "+", "0000000000000"];
        for bound in BOUNDS {
            for code in bound.saturating_sub(2)..=bound + 1 {
                for spelling in 0..4 {
                    self.add(texts::coded(code, spelling, ""));
                    let other = before[(code as usize + spelling) % before.len()];
                    self.add(texts::coded(code, spelling, other));
                }
            }
        }
    }

    /// A reference behind plain runs of every length.
    fn add_offsets(&mut self) {
        let references: Vec<&str> = texts::references().collect();
        for offset in 0..=LONGEST {
            let plain = ["a", "%", ";"][offset % 3].repeat(offset);
            let reference = references[offset % references.len()];
            self.add(plain.clone() + reference);
            self.add(plain);
        }
    }

    fn add_random(&mut self) {
        let mut random = Random::new(1);
        while self.list.len() < TEXTS {
            let text = texts::random(&mut random);
            let wanted = text.len() <= MOSTLY || random.chance(10);
            if let (true, Ok(text)) = (wanted, String::from_utf8(text)) {
                self.add(text);
            }
        }
    }
}

/// The bodies in the order of the file, each once: document 01's, then those that
/// are few among random ones, then random ones.
#[derive(Default)]
struct Bodies {
    seen: HashSet<Vec<u8>>,
    lines: Vec<String>,
}

impl Bodies {
    /// A body whose line is short enough, and which is new.
    fn add(&mut self, body: Vec<u8>) {
        let line = drain_line(&body);
        if line.len() < LONGEST_LINE && self.seen.insert(body) {
            self.lines.push(line);
        }
    }

    fn add_marked(&mut self) {
        for body in [
            "",
            "<a><b></a></b>",
            "<a>",
            "<r><b>7</b></r>",
            "<r x=\"1\" x=\"2\"/>",
            "<r><a x=\"&zz;\">1</a><b>2</b></r>",
            "<r><a>1</b><c>2</c></r>",
        ] {
            self.add(body.into());
        }
        for reference in texts::references() {
            self.add(format!("<a>{reference}</a>").into());
            self.add(format!("<a x='{reference}'/>").into());
        }
    }

    fn add_shapes(&mut self) {
        for count in 1..=12 {
            for tag in ["a", "p:a"] {
                self.add(nested(tag, count, "<b/>", count));
                self.add(nested(tag, count, "t", count - 1));
            }
            self.add(start_tag(count, "p:").into());
            self.add(start_tag(count + 1, "").into());
        }
        let prefixes = ["", "p:", "q:", ":"];
        for (first, second) in prefixes.iter().flat_map(|f| prefixes.map(|s| (f, s))) {
            self.add(format!("<{first}a></{second}a>").into());
            self.add(format!("<r {first}x='' {second}x=''/>").into());
        }
    }

    fn add_random(&mut self) {
        let mut random = Random::new(2);
        while self.lines.len() < BODIES {
            let body = bodies::random(&mut random);
            // what passes would be half of them
            if body.len() <= LONGEST && (random.chance(50) || of_rust(&body).number != 0) {
                self.add(body);
            }
        }
    }
}

fn validate_line(text: &str) -> String {
    let number = oracle::validate_references(text).map_or_else(|error| error.number(), |()| 0);
    format!("v {} {number}", hex(text.as_bytes()))
}

fn unescape_line(text: &str) -> String {
    let asked = hex(text.as_bytes());
    match oracle::unescape(text) {
        Ok(result) => format!("u {asked} 0 {}", hex(result.as_bytes())),
        Err(error) => format!("u {asked} {}", error.number()),
    }
}

fn main() -> std::io::Result<()> {
    let mut texts = Texts::default();
    texts.add_fragments();
    texts.add_bounds();
    texts.add_offsets();
    texts.add_random();
    let mut bodies = Bodies::default();
    bodies.add_marked();
    bodies.add_shapes();
    bodies.add_random();
    let mut out = BufWriter::new(std::io::stdout().lock());
    for text in &texts.list {
        writeln!(out, "{}", validate_line(text))?;
        writeln!(out, "{}", unescape_line(text))?;
    }
    for line in bodies
        .lines
        .iter()
        .chain(&Readings::all(LONGEST_LINE).lines)
    {
        writeln!(out, "{line}")?;
    }
    out.flush()
}
