//! Times Falzheod beside the Rust's own functions, in one run, and prints a
//! Markdown table. Build it with `--profile speed`.
//!
//! The two sides take turns; each number is the median of the turns. The Rust's
//! unescape allocates its result, and borrows the text where it has no `&`; that
//! is its own cost. Falzheod writes to a buffer that is lent again and again and not
//! cleared between calls.

use compare::random::Random;
use compare::timing::{medians, TURNS};
use compare::uploads::{many_references, numeric, NAMED};
use std::hint::black_box;

const SIZE: usize = 64 * 1024;

const LETTERS: [&str; 8] = ["é", "µ", "ß", "€", "木", "輪", "🌲", "🪵"];
const WORDS: [&str; 6] = ["ring ", "width ", "of ", "the ", "core ", "sapwood "];
const TWENTY: &str = "ring widths of core ";
const NOTE: &str = include_str!("../../../samples/note.txt");

/// A text of `SIZE` bytes: parts from `part` as long as they fit, then letters.
fn text(mut part: impl FnMut(&mut Random) -> String) -> String {
    let mut random = Random::new(7);
    let mut text = String::new();
    loop {
        let next = part(&mut random);
        if text.len() + next.len() > SIZE {
            return text.clone() + &"a".repeat(SIZE - text.len());
        }
        text += &next;
    }
}

/// Some hundred bytes of `from`, then one reference.
fn hundred(random: &mut Random, from: &[&str]) -> String {
    let mut part = String::new();
    while part.len() < 95 {
        part += random.pick(from);
    }
    part + random.pick(&NAMED)
}

/// A reference by number, and letters up to twenty bytes.
fn twenty(random: &mut Random) -> String {
    let reference = numeric(random);
    let rest = &TWENTY[reference.len()..];
    reference + rest
}

fn reference_texts() -> [(&'static str, String); 9] {
    [
        ("no `&`", text(|random| random.pick(&WORDS).to_string())),
        (
            "a reference in a hundred bytes",
            text(|random| hundred(random, &WORDS)),
        ),
        (
            "all references, named",
            text(|random| random.pick(&NAMED).to_string()),
        ),
        ("all references, numeric", text(numeric)),
        (
            "not ASCII, a reference in a hundred bytes",
            text(|random| hundred(random, &LETTERS)),
        ),
        ("a numeric reference in twenty bytes", text(twenty)),
        (
            "all references but single letters, mixed",
            text(|random| many_references(random, 1)),
        ),
        ("samples/note.txt", NOTE.to_string()),
        (
            "one reference, 65,000 zeros",
            format!("&#{}65;", "0".repeat(65_000)),
        ),
    ]
}

fn utf8_texts() -> [(&'static str, String); 3] {
    let mixed = |random: &mut Random| {
        let from: &[&str] = if random.chance(20) { &LETTERS } else { &WORDS };
        random.pick(from).to_string()
    };
    [
        ("ASCII", text(|random| random.pick(&WORDS).to_string())),
        ("mixed", text(mixed)),
        (
            "not ASCII",
            text(|random| random.pick(&LETTERS).to_string()),
        ),
    ]
}

fn row(
    operation: &str,
    (name, bytes): (&str, usize),
    ours: &mut dyn FnMut(),
    rust: &mut dyn FnMut(),
) {
    let [our_time, rust_time] = medians([ours, rust]);
    let speed = |time: f64| bytes as f64 / time;
    println!(
        "| {operation} | {name} | {bytes} | {our_time:.0} | {:.2} | {rust_time:.0} | {:.2} | {:.2} |",
        speed(our_time),
        speed(rust_time),
        rust_time / our_time
    );
}

fn unescape_row(name: &str, text: &str) {
    let mut out = vec![0; SIZE];
    let length = falzheod::unescape(text.as_bytes(), &mut out).expect("good references");
    let expected = oracle::unescape(text).expect("good references");
    assert_eq!(&out[..length], expected.as_bytes());
    row(
        "unescape",
        (name, text.len()),
        &mut || {
            let _ = black_box(falzheod::unescape(black_box(text.as_bytes()), &mut out));
        },
        &mut || {
            let _ = black_box(oracle::unescape(black_box(text)));
        },
    );
}

fn validate_row(name: &str, text: &str) {
    assert!(falzheod::validate_references(text.as_bytes()).is_ok());
    assert!(oracle::validate_references(text).is_ok());
    row(
        "validate_references",
        (name, text.len()),
        &mut || {
            let _ = black_box(falzheod::validate_references(black_box(text.as_bytes())));
        },
        &mut || {
            let _ = black_box(oracle::validate_references(black_box(text)));
        },
    );
}

fn utf8_row(name: &str, text: &str) {
    assert!(falzheod::is_utf8(text.as_bytes()));
    row(
        "is_utf8",
        (name, text.len()),
        &mut || {
            black_box(falzheod::is_utf8(black_box(text.as_bytes())));
        },
        &mut || {
            let _ = black_box(std::str::from_utf8(black_box(text.as_bytes())));
        },
    );
}

fn main() {
    println!("Medians of {TURNS} turns; the ratio is the Rust's time by ours.");
    println!("is_utf8 stands beside std::str::from_utf8.\n");
    println!("| operation | text | bytes | Falzheod ns | GB/s | Rust ns | GB/s | ratio |");
    println!("|---|---|---:|---:|---:|---:|---:|---:|");
    for (name, text) in reference_texts() {
        unescape_row(name, &text);
    }
    for (name, text) in reference_texts() {
        validate_row(name, &text);
    }
    for (name, text) in utf8_texts() {
        utf8_row(name, &text);
    }
}
