//! Times of one reading, ours beside the Rust's.
//!
//! Ours has the table at hand and writes entries and texts to buffers that are lent
//! again and again. The Rust gets the body: it tokenizes as it reads, and hands each
//! member, item or map entry to a consumer, which counts it and lets it go; its codec
//! and schema are made once (oracle/src/timed.rs). So neither side does anything with
//! what it read, and a child's text without references costs the Rust no copy.
//!
//! Before that the library, the Rust and the model are compared entry by entry, and
//! what the timed calls give with that. What differs ends the program.

use crate::lent::Made;
use crate::reader::{self, Asked, Kind, Told};
use crate::readings::{enough, Asker};
use crate::timing::medians;
use falzheod::lent::{self, Entry, Lent, Refused, Written};
use falzheod::Settings;
use oracle::timed::Codec;
use std::fmt::Debug;
use std::hint::black_box;

/// The maximum depth of the default settings of both sides.
const MAX_DEPTH: u32 = 128;

pub enum Reading {
    BySheet(Kind, Vec<u8>),
    Boolean,
    Integer,
    String,
    /// The root or its first child of this name.
    Find(&'static str),
}

fn settings(flags: u32) -> Settings {
    Settings {
        validate_document: flags & 1 != 0,
        validate_root_name: flags & 2 != 0,
        strict_collection_element_names: flags & 4 != 0,
        max_depth: MAX_DEPTH,
    }
}

fn lent_of(made: &Made) -> Lent<'_> {
    Lent {
        body: &made.body,
        rows: &made.numbers,
        end: made.end,
    }
}

/// Ours and the Rust's, in nanoseconds.
pub type Times = [f64; 2];

fn timed<A, B>(mut ours: impl FnMut() -> A, mut rust: impl FnMut() -> B) -> Times {
    medians([
        &mut || {
            black_box(ours());
        },
        &mut || {
            black_box(rust());
        },
    ])
}

/// The times of a reading with these flags, at depth 0; `name` is shown where the two
/// sides differ.
pub fn times(name: &str, reading: &Reading, flags: u32, made: &Made) -> Times {
    let (codec, body, how) = (Codec::new(flags), &made.body, settings(flags));
    let lent = || black_box(lent_of(made));
    match reading {
        Reading::BySheet(kind, sheet) => by_sheet(name, *kind, sheet, flags, made),
        Reading::Boolean => of_value(
            name,
            || lent::read_boolean(lent(), how, 0),
            || codec.boolean(black_box(body)),
        ),
        Reading::Integer => of_value(
            name,
            || lent::read_integer(lent(), how, 0),
            || codec.integer(black_box(body)),
        ),
        Reading::String => of_string(name, how, made, || codec.string(black_box(body))),
        Reading::Find(element) => of_value(
            name,
            || lent::find(lent(), element.as_bytes()).map(|part| place(body, part)),
            || oracle::find(black_box(body), element).ok_or(13),
        ),
    }
}

/// Start and length of a part of the body.
fn place(body: &[u8], part: &[u8]) -> (usize, usize) {
    (part.as_ptr() as usize - body.as_ptr() as usize, part.len())
}

/// A call that gives one value: both give it, and the same.
fn of_value<T: PartialEq + Debug, E: Debug>(
    name: &str,
    ours: impl Fn() -> Result<T, E>,
    rust: impl Fn() -> Result<T, u32>,
) -> Times {
    let value = rust().unwrap_or_else(|number| panic!("{name}: the Rust refuses with {number}"));
    let got = ours().unwrap_or_else(|refusal| panic!("{name}: refused: {refusal:?}"));
    assert!(got == value, "{name}: is {got:?}, the Rust {value:?}");
    timed(ours, rust)
}

fn of_string(
    name: &str,
    how: Settings,
    made: &Made,
    rust: impl Fn() -> Result<String, u32>,
) -> Times {
    let mut out = vec![0; made.body.len()];
    let mut ours = || lent::read_string(black_box(lent_of(made)), how, 0, &mut out);
    let length = ours().unwrap_or_else(|refusal| panic!("{name}: refused: {refusal:?}"));
    assert!(
        rust().is_ok_and(|text| text.as_bytes() == &out[..length]),
        "{name}: another string than the Rust's"
    );
    let ours = || lent::read_string(black_box(lent_of(made)), how, 0, &mut out);
    timed(ours, rust)
}

/// The reading by a sheet as the model has it, after the library and the Rust were
/// compared with it.
fn compared(name: &str, kind: Kind, asked: Asked<'_>, made: &Made) -> Told {
    let compared = Asker::default()
        .reading(kind, made.lent(), asked, true)
        .unwrap_or_else(|problem| panic!("{name}: {problem}"));
    assert!(
        compared.rust && compared.number == 0,
        "{name}: not read by both: {compared:?}"
    );
    reader::read(kind, made.lent(), asked, enough(made.lent()))
}

fn by_sheet(name: &str, kind: Kind, sheet: &[u8], flags: u32, made: &Made) -> Times {
    let asked = Asked {
        sheet,
        flags,
        max_depth: MAX_DEPTH,
        depth: 0,
    };
    let told = compared(name, kind, asked, made);
    let mut entries = vec![Entry::default(); told.entries.len()];
    let mut texts = vec![0; told.texts.len()];
    let written = read(kind, made, sheet, flags, &mut entries, &mut texts);
    assert!(written.is_ok(), "{name}: refused: {written:?}");
    let got: Vec<[u32; 6]> = entries.iter().map(numbers).collect();
    assert!(
        got == told.entries && texts == told.texts,
        "{name}: other entries than compared"
    );
    Codec::new(flags).with_reading(kind, sheet, |rust| {
        assert_eq!(
            rust(&made.body),
            Ok(told.entries.len()),
            "{name}: the Rust's count"
        );
        timed(
            || read(kind, made, sheet, flags, &mut entries, &mut texts),
            || rust(black_box(&made.body)),
        )
    })
}

fn numbers(entry: &Entry) -> [u32; 6] {
    let Entry {
        kind,
        member,
        key_start,
        key_len,
        start,
        len,
    } = *entry;
    [kind, member, key_start, key_len, start, len]
}

fn read(
    kind: Kind,
    made: &Made,
    sheet: &[u8],
    flags: u32,
    entries: &mut [Entry],
    texts: &mut [u8],
) -> Result<Written, Refused> {
    let (lent, how) = (black_box(lent_of(made)), settings(flags));
    match kind {
        Kind::Struct => lent::read_struct(lent, sheet, how, 0, entries, texts),
        Kind::List => lent::read_list(lent, sheet, how, 0, entries),
        Kind::Map => lent::read_map(lent, sheet, how, 0, entries, texts),
        Kind::Strings => lent::read_string_list(lent, sheet, how, 0, entries, texts),
    }
}
