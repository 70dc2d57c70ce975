//! The bodies at the edges that document 01 marks for the drain, and what a caller
//! of the wrapper relies on. The tables are written by hand.

use falzheod::{drain, drain_numbers, Cause, Refusal, Row};

/// A row of kind 1 or 4 without prefix.
fn named(kind: u32, local_start: u32, local_len: u32, position: u32) -> Row {
    Row {
        kind,
        local_start,
        local_len,
        position,
        ..Row::default()
    }
}

fn plain(kind: u32, position: u32) -> Row {
    Row {
        kind,
        position,
        ..Row::default()
    }
}

fn attribute(local_start: u32, value_start: u32, position: u32) -> Row {
    Row {
        value_start,
        value_len: position - 1 - value_start,
        ..named(2, local_start, 1, position)
    }
}

fn ill_formed(row: usize, cause: Cause) -> Result<(), Refusal> {
    Err(Refusal::IllFormed { row, cause })
}

#[test]
fn no_rows_pass_whatever_the_body() {
    assert_eq!(drain(b"", &[], 0), Ok(()));
    assert_eq!(drain(b"<a>", &[], 3), Ok(()));
    assert_eq!(drain(b"\xFF", &[], 0), Ok(()));
    // the final position is a rule all the same
    assert_eq!(drain(b"", &[], 1), Err(Refusal::Table));
}

#[test]
fn mismatched_and_unclosed() {
    let body = b"<a><b></a></b>";
    let rows = [
        named(1, 1, 1, 2),
        plain(3, 3),
        named(1, 4, 1, 5),
        plain(3, 6),
        named(4, 8, 1, 10),
        named(4, 12, 1, 14),
    ];
    assert_eq!(drain(body, &rows, 14), ill_formed(4, Cause::Mismatched));
    assert_eq!(drain(b"<a>", &rows[..2], 3), ill_formed(2, Cause::Unclosed));
}

#[test]
fn repeated_comes_before_reference() {
    let body = br#"<r x="1" x="&"/>"#;
    let rows = [
        named(1, 1, 1, 2),
        attribute(3, 6, 8),
        attribute(9, 12, 14),
        plain(5, 16),
    ];
    assert_eq!(drain(body, &rows, 16), ill_formed(2, Cause::Repeated));
    let other = br#"<r x="1" y="&"/>"#;
    let reference = Cause::Reference { at: 12 };
    assert_eq!(drain(other, &rows, 16), ill_formed(2, reference));
    let good = br#"<r x="1" y="2"/>"#;
    assert_eq!(drain(good, &rows, 16), Ok(()));
}

/// The first `&` that validation refuses, counted in the body: unescaping takes `&#+65;`.
#[test]
fn a_reference_has_its_place_in_the_body() {
    let bad = |row, at| ill_formed(row, Cause::Reference { at });
    let body = br#"<r x="&lt;&#+65;&zz;"/>"#;
    let rows = [named(1, 1, 1, 2), attribute(3, 6, 21), plain(5, 23)];
    assert_eq!(drain(body, &rows, 23), bad(1, 10));
    let text = Row {
        value_start: 3,
        value_len: 8,
        ..plain(6, 11)
    };
    let rows = [named(1, 1, 1, 2), plain(3, 3), text, named(4, 13, 1, 15)];
    assert_eq!(drain(b"<r>&gt;1& &</r>", &rows, 15), bad(2, 8));
    assert_eq!(drain(b"<r>&gt;abc&</r>", &rows, 15), bad(2, 10));
    assert_eq!(drain(b"<r>&gt;abcd</r>", &rows, 15), Ok(()));
}

#[test]
fn a_token_error_and_a_broken_table() {
    let error = plain(8, 1);
    assert_eq!(drain(b"<", &[error], 1), ill_formed(0, Cause::Token));
    assert_eq!(drain(b"<", &[error, error], 1), Err(Refusal::Table));
    assert_eq!(drain(b"\xFF", &[error], 1), Err(Refusal::Table));
}

#[test]
fn numbers_are_rows_in_a_line() {
    let numbers = [1, 0, 0, 1, 1, 0, 0, 2, 5, 0, 0, 0, 0, 0, 0, 4];
    assert_eq!(drain_numbers(b"<a/>", &numbers, 4), Ok(()));
    for length in (1..numbers.len()).filter(|length| length % 8 != 0) {
        let cut = drain_numbers(b"<a/>", &numbers[..length], 4);
        assert_eq!(cut, Err(Refusal::Table), "{length}");
    }
}

#[test]
fn refusals_speak() {
    let causes = [
        Cause::Token,
        Cause::Mismatched,
        Cause::Unclosed,
        Cause::Repeated,
        Cause::Reference { at: 40 },
    ];
    for (number, cause) in (1..).zip(causes) {
        assert_eq!(cause.number(), number);
        let refusal = Refusal::IllFormed { row: 7, cause };
        assert_eq!(refusal.number(), 9);
        assert_eq!(refusal.to_string(), format!("ill-formed at row 7: {cause}"));
    }
    let bad = Cause::Reference { at: 40 };
    assert_eq!(bad.to_string(), "the reference at byte 40 is bad");
    assert_eq!(Refusal::Table.number(), 1);
    assert_eq!(Refusal::Table.to_string(), "the token table breaks a rule");
}
