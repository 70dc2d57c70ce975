//! Tables that the feature `xmlparser` makes, and the drain over them. compare/
//! holds them to the Rust's own on many bodies.
#![cfg(feature = "xmlparser")]

use falzheod::table::{from_tokens, Table};
use falzheod::{drain, Cause, Refusal, Row};

fn drained(body: &[u8]) -> Result<(), Refusal> {
    let Table { rows, end } = from_tokens(body);
    drain(body, &rows, end)
}

fn ill_formed(row: usize, cause: Cause) -> Result<(), Refusal> {
    Err(Refusal::IllFormed { row, cause })
}

#[test]
fn every_field_of_a_row() {
    let table = from_tokens(b"<p:a q:b='1'/>");
    let start = Row {
        kind: 1,
        prefix_start: 1,
        prefix_len: 1,
        local_start: 3,
        local_len: 1,
        position: 4,
        ..Row::default()
    };
    let attribute = Row {
        kind: 2,
        prefix_start: 5,
        prefix_len: 1,
        local_start: 7,
        local_len: 1,
        value_start: 10,
        value_len: 1,
        position: 12,
    };
    let end = Row {
        kind: 5,
        position: 14,
        ..Row::default()
    };
    assert_eq!(table.rows, [start, attribute, end]);
    assert_eq!(table.end, 14);
}

#[test]
fn bodies_without_a_table() {
    assert_eq!(from_tokens(b""), Table::default());
    assert_eq!(from_tokens(b"<a>\xFF</a>"), Table::default());
}

#[test]
fn an_error_stands_at_the_end() {
    let table = from_tokens(b"<a><<b></a>");
    let last = table.rows[table.rows.len() - 1];
    assert_eq!((last.kind, last.position, table.end), (8, 11, 11));
}

#[test]
fn uploads_whole_and_cut() {
    let whole = "<cores><core id='7'>larch &amp; µ</core><!-- c --></cores>";
    assert_eq!(drained(whole.as_bytes()), Ok(()));
    for length in 1..whole.len() {
        let cut = drained(&whole.as_bytes()[..length]);
        // a cut inside a character leaves a body that is not UTF-8, without rows
        let utf8 = whole.is_char_boundary(length);
        assert_eq!(cut.is_ok(), !utf8, "{length}");
    }
}

#[test]
fn what_is_ill_formed() {
    assert_eq!(drained(b"<a><b></a></b>"), ill_formed(4, Cause::Mismatched));
    assert_eq!(drained(b"<a>"), ill_formed(2, Cause::Unclosed));
    let reference = |at| Cause::Reference { at };
    assert_eq!(drained(b"<a>&zz;</a>"), ill_formed(2, reference(3)));
    assert_eq!(
        drained(b"<a>&lt;\xC2\xB5&</a>"),
        ill_formed(2, reference(9))
    );
    assert_eq!(
        drained(b"<a x='1' y='&#+5;'/>"),
        ill_formed(2, reference(12))
    );
    assert_eq!(drained(b"<a x='' x=''/>"), ill_formed(2, Cause::Repeated));
    assert_eq!(drained(b"<a/><b/>"), ill_formed(2, Cause::Token));
}
