//! Where the failing `&` stands: beside 7, counted in the body, for each reading that answers
//! it; in the entry of a failed text; and nowhere else.
#![cfg(feature = "xmlparser")]

use falzheod::lent::{self, Entry, Lent, Refused, Written};
use falzheod::table::from_tokens;
use falzheod::{sys, Cause, ListSheet, MapSheet, Member, Refusal, Row, Settings, StructSheet};
use std::fmt::Debug;

const LENIENT: Settings = Settings {
    validate_document: false,
    validate_root_name: false,
    strict_collection_element_names: false,
    max_depth: 128,
};
const STRICT: Settings = Settings {
    validate_document: true,
    ..LENIENT
};

/// A body with the numbers of its table.
struct Body<'a> {
    text: &'a str,
    rows: Vec<u32>,
    end: u32,
}

impl Body<'_> {
    fn of(text: &str) -> Body<'_> {
        let table = from_tokens(text.as_bytes());
        let rows = table.rows.iter().flat_map(Row::numbers).collect();
        let end = table.end;
        Body { text, rows, end }
    }

    fn lent(&self) -> Lent<'_> {
        Lent {
            body: self.text.as_bytes(),
            rows: &self.rows,
            end: self.end,
        }
    }
}

fn read_string(lent: Lent<'_>, settings: Settings, depth: u32) -> Result<usize, Refusal> {
    lent::read_string(lent, settings, depth, &mut [0; 64])
}

fn read_strings(lent: Lent<'_>, settings: Settings, depth: u32) -> Result<Written, Refused> {
    let list = ListSheet::builder().build().unwrap();
    let (mut entries, mut texts) = ([Entry::default(); 4], [0; 64]);
    lent::read_string_list(
        lent,
        list.as_bytes(),
        settings,
        depth,
        &mut entries,
        &mut texts,
    )
}

fn read_map(lent: Lent<'_>, settings: Settings, depth: u32) -> Result<Written, Refused> {
    let map = MapSheet::builder().build().unwrap();
    let (mut entries, mut texts) = ([Entry::default(); 4], [0; 64]);
    lent::read_map(
        lent,
        map.as_bytes(),
        settings,
        depth,
        &mut entries,
        &mut texts,
    )
}

/// Where a reading of the body is refused: lenient, strict, and with the strict settings at
/// depth 1, where it is lenient again.
fn places<T: Debug>(
    body: &str,
    read: impl Fn(Lent<'_>, Settings, u32) -> Result<T, Refusal>,
) -> [usize; 3] {
    let body = Body::of(body);
    let calls = [(LENIENT, 0), (STRICT, 0), (STRICT, 1)];
    calls.map(
        |(settings, depth)| match read(body.lent(), settings, depth) {
            Err(Refusal::Reference { at }) => at,
            other => panic!("{other:?}"),
        },
    )
}

/// The same of a reading that had written so many entries by then.
fn places_behind(
    written: usize,
    body: &str,
    read: impl Fn(Lent<'_>, Settings, u32) -> Result<Written, Refused>,
) -> [usize; 3] {
    places(body, |lent, settings, depth| {
        let refused = read(lent, settings, depth).unwrap_err();
        assert_eq!(refused.written.count, written);
        Err::<(), _>(refused.refusal)
    })
}

/// Validation refuses the sign in `&#+65;`, which unescaping takes.
#[test]
fn scalars() {
    let body = "<a>&#+65;&zz;</a>";
    assert_eq!(places(body, read_string), [9, 3, 9]);
    assert_eq!(places(body, lent::read_boolean), [9, 3, 9]);
    assert_eq!(places(body, lent::read_integer), [9, 3, 9]);
    let body = "<!-- & --><a x='&amp;'>µ\n &lt; &amp &</a>";
    assert_eq!(&body[32..33], "&");
    assert_eq!(places(body, read_string), [32; 3]);
    assert_eq!(places(body, lent::read_boolean), [32; 3]);
    assert_eq!(places(body, lent::read_integer), [32; 3]);
}

#[test]
fn lists_of_strings() {
    let body = "<l><s>one</s><s>&#+65;&zz;</s><s>&</s></l>";
    assert_eq!(places_behind(1, body, read_strings), [22, 16, 22]);
    let body = "<l><s>&amp;</s><s>µ &gt; & 7</s></l>";
    assert_eq!(places_behind(1, body, read_strings), [26; 3]);
}

#[test]
fn maps() {
    let entry = |key, value| format!("<entry><key>{key}</key><value>{value}</value></entry>");
    let good = entry("&lt;", "1");
    for bad in [entry("&#+65;&zz;", "2"), entry("2", "&#+65;&zz;")] {
        let body = format!("<m>{good}{bad}</m>");
        let lenient = body.find("&zz;").unwrap();
        let strict = body.find("&#+65;").unwrap();
        let expected = [lenient, strict, lenient];
        assert_eq!(places_behind(1, &body, read_map), expected, "{body}");
    }
}

/// A bad value in the tag of an element is no text of it: the tag does not count.
#[test]
fn values_in_a_tag() {
    let body = Body::of("<a x='&#+65;'>7</a>");
    assert_eq!(lent::read_integer(body.lent(), LENIENT, 0), Ok(7));
    let no_root = Err(Refusal::NoRoot);
    assert_eq!(lent::read_integer(body.lent(), STRICT, 0), no_root);
    let body = Body::of("<a x='&zz;'>7</a>");
    assert_eq!(lent::read_integer(body.lent(), LENIENT, 0), no_root);
}

/// Of a strict reading that meets no text the drain tells the place.
#[test]
fn the_cause_of_a_9() {
    let body = Body::of("<l><s>&#+65;&zz;</s></l>");
    let list = ListSheet::builder().build().unwrap();
    let mut entries = [Entry::default(); 4];
    let read = lent::read_list(body.lent(), list.as_bytes(), STRICT, 0, &mut entries);
    let ill_formed = Refusal::IllFormed {
        row: 4,
        cause: Cause::Reference { at: 6 },
    };
    assert_eq!(read.unwrap_err().refusal, ill_formed);
}

/// The number and the length of each failed text, and the reading's refusal.
fn failed(text: &str, settings: Settings) -> (Vec<(u32, u32)>, Option<Refusal>) {
    let members = ["a", "b", "c"].map(Member::new);
    let sheet = members
        .into_iter()
        .fold(StructSheet::builder("r"), |sheet, member| {
            sheet.member(member)
        });
    let sheet = sheet.build().unwrap();
    let (mut entries, mut texts) = ([Entry::default(); 8], [0; 64]);
    let body = Body::of(text);
    let read = lent::read_struct(
        body.lent(),
        sheet.as_bytes(),
        settings,
        0,
        &mut entries,
        &mut texts,
    );
    let (written, refusal) = match read {
        Ok(written) => (written, None),
        Err(refused) => (refused.written, Some(refused.refusal)),
    };
    let failed = entries[..written.count]
        .iter()
        .filter(|entry| entry.kind == 4);
    (failed.map(|e| (e.start, e.len)).collect(), refusal)
}

#[test]
fn entries_of_failed_texts() {
    // 7 has its place, each its own; 6 and 8 have none
    let body = "<r><a>1&zz;</a><b><i/></b><a>&#+65;&</a></r>";
    assert_eq!(failed(body, LENIENT), (vec![(7, 7), (6, 0), (7, 35)], None));
    let body = "<r><a>&zz;</a><b><i/></b><c><1";
    assert_eq!(failed(body, LENIENT), (vec![(7, 6), (6, 0), (8, 0)], None));
    // strict: the place of validation, and 9 without one
    let ill_formed = |row, cause| Some(Refusal::IllFormed { row, cause });
    let body = "<r><b>7</b><a>&#+65;&zz;</a></r>";
    assert_eq!(failed(body, LENIENT), (vec![(7, 20)], None));
    let refusal = ill_formed(8, Cause::Reference { at: 14 });
    assert_eq!(failed(body, STRICT), (vec![(7, 14)], refusal));
    let body = "<r><b>&lt;</b><a></b></r>";
    let refusal = ill_formed(8, Cause::Mismatched);
    assert_eq!(failed(body, STRICT), (vec![(9, 0)], refusal));
}

/// The number of a call, and what becomes of a `place` that held another.
fn told(call: impl FnOnce(*mut usize) -> u32) -> (u32, usize) {
    let mut place = 99;
    let number = call(&mut place);
    (number, place)
}

#[test]
fn operations_on_texts_without_a_place() {
    let unescape = |text: &[u8], room: usize| {
        let (mut out, mut length) = ([0; 8], 0);
        let (text, len, out) = (text.as_ptr(), text.len(), out.as_mut_ptr());
        // SAFETY: the pointers are those of slices and variables, with their lengths.
        told(|place| unsafe { sys::falzheod_unescape(text, len, out, room, &mut length, place) })
    };
    assert_eq!(unescape(b"ab&", 8), (7, 2));
    assert_eq!(unescape(b"ab&", 0), (7, 2));
    assert_eq!(unescape(b"ab&lt;", 8), (0, 0));
    assert_eq!(unescape(b"ab&lt;", 2), (10, 0));
    let validate = |text: &[u8]| {
        let (text, len) = (text.as_ptr(), text.len());
        // SAFETY: as above.
        told(|place| unsafe { sys::falzheod_validate_references(text, len, place) })
    };
    assert_eq!(validate(b"ab&"), (7, 2));
    assert_eq!(validate(b"ab&lt;"), (0, 0));
}

/// One of the library's functions over a body, told as above.
macro_rules! call {
    ($function:expr, $body:expr, $($more:expr),*) => {{
        let body = Body::of($body);
        let (text, rows) = (body.text.as_bytes(), &body.rows[..]);
        let (bytes, numbers) = (text.len(), rows.len());
        // SAFETY: the pointers are those of slices and variables, with their lengths.
        told(|place| unsafe {
            $function(text.as_ptr(), bytes, rows.as_ptr(), numbers, body.end, $($more,)* place)
        })
    }};
}

#[test]
fn the_drain_without_a_place() {
    let drain = |body: &str| {
        let (mut row, mut cause) = (0, 0);
        call!(sys::falzheod_drain, body, &mut row, &mut cause)
    };
    assert_eq!(drain("<a>1&</a>"), (9, 4));
    for ill_formed in ["<a>", "<a></b>", "<a x='' x='&'/>", "<a><1/></a>"] {
        assert_eq!(drain(ill_formed), (9, 0), "{ill_formed}");
    }
    assert_eq!(drain("<a>&lt;</a>"), (0, 0));
    let many = "<a>".repeat(257);
    assert_eq!(drain(&many), (1, 0));
}

#[test]
fn scalars_without_a_place() {
    let boolean = |body: &str, flags: u32| {
        let mut value = 0;
        call!(sys::falzheod_read_boolean, body, flags, 0, &mut value)
    };
    let integer = |body: &str, flags: u32| {
        let mut value = 0;
        call!(sys::falzheod_read_integer, body, flags, 0, &mut value)
    };
    let string = |body: &str, flags: u32, room: usize| {
        let (mut out, mut length) = ([0; 8], 0);
        let (out, n) = (out.as_mut_ptr(), &mut length);
        call!(sys::falzheod_read_string, body, flags, 0, out, room, n)
    };
    let many = "<a>".repeat(257);
    for (body, flags, number) in [
        (&many[..], 0, 1),
        ("", 0, 4),
        ("<a><b/></a>", 0, 6),
        ("<a><1", 0, 8),
        ("<a>", 1, 9),
    ] {
        let told = [
            boolean(body, flags),
            integer(body, flags),
            string(body, flags, 8),
        ];
        assert_eq!(told, [(number, 0); 3], "{body}");
    }
    assert_eq!(boolean("<a>true</a>", 1), (0, 0));
    assert_eq!(boolean("<a>7</a>", 0), (11, 0));
    assert_eq!(integer("<a>7</a>", 1), (0, 0));
    assert_eq!(integer("<a>true</a>", 0), (12, 0));
    assert_eq!(string("<a>7</a>", 1, 1), (0, 0));
    assert_eq!(string("<a>7</a>", 0, 0), (10, 0));
}

#[test]
fn collections_without_a_place() {
    let both = [sys::falzheod_read_map, sys::falzheod_read_string_list];
    let read = |body: &str, sheet: &[u8], flags: u32, max: u32, room: usize| {
        both.map(|function| {
            let (mut entries, mut texts) = ([0; 24], [0; 64]);
            let (mut count, mut length) = (0, 0);
            let (s, len) = (sheet.as_ptr(), sheet.len());
            let (e, t) = (entries.as_mut_ptr(), texts.as_mut_ptr());
            let (n, l) = (&mut count, &mut length);
            call!(function, body, s, len, flags, max, 0, e, 24, t, room, n, l)
        })
    };
    let body = "<m><e>1<key>1</key><value>1</value></e></m>";
    assert_eq!(read(body, &[0], 0, 9, 64), [(0, 0); 2]);
    let many = "<a>".repeat(257);
    assert_eq!(read(&many, &[0], 0, 9, 64), [(1, 0); 2]);
    assert_eq!(read(body, &[255], 0, 9, 64), [(2, 0); 2]);
    assert_eq!(read(body, &[0], 0, 0, 64), [(3, 0); 2]);
    assert_eq!(read("", &[0], 0, 9, 64), [(4, 0); 2]);
    assert_eq!(read("<m><e><key><1", &[0], 0, 9, 64), [(8, 0), (6, 0)]);
    assert_eq!(read("<m>", &[0], 1, 9, 64), [(9, 0); 2]);
    assert_eq!(read(body, &[0], 0, 9, 0), [(10, 0); 2]);
}
