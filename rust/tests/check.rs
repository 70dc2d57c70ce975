//! What `check` says of bodies that are no upload, and where: byte, line and column.
#![cfg(feature = "xmlparser")]

mod common;

use common::{body, Random};
use falzheod::{check, drain, table, Cause, CheckError, Limit, Place, Refusal};

fn says(body: impl AsRef<[u8]>) -> String {
    check(body.as_ref()).unwrap_err().to_string()
}

fn place(byte: usize, line: usize, column: usize) -> Place {
    Place { byte, line, column }
}

#[test]
fn no_false_passes() {
    assert_eq!(says(""), "the body is empty");
    assert_eq!(says(b"<u>L\xC3"), "line 1, column 5: not UTF-8 at byte 4");
    // UTF-16, both ways, and the front of a picture
    assert_eq!(
        says(b"\xFF\xFE<\0a\0"),
        "line 1, column 1: not UTF-8 at byte 0"
    );
    assert_eq!(
        says(b"\xFE\xFF\0<\0a"),
        "line 1, column 1: not UTF-8 at byte 0"
    );
    assert_eq!(
        says(b"\x89PNG\r\n"),
        "line 1, column 1: not UTF-8 at byte 0"
    );
    let nothing = "the body ends without an element";
    assert_eq!(says(" \n\n "), format!("line 3, column 2: {nothing}"));
    assert_eq!(says("<!-- c -->"), format!("line 1, column 11: {nothing}"));
    assert_eq!(
        says("<!DOCTYPE a ["),
        format!("line 1, column 14: {nothing}")
    );
    assert_eq!(says("\u{FEFF}"), format!("line 1, column 1: {nothing}"));
    assert_eq!(says("larch"), "line 1, column 1: unknown token");
    assert_eq!(says("<a/><b/>"), "line 1, column 5: unknown token");
}

#[test]
fn the_tokenizers_own_words() {
    for (body, words) in [
        (
            "<a x=7/>",
            "1, column 6: invalid attribute: expected quote mark not '7'",
        ),
        (
            "<a\nx 7/>",
            "2, column 3: invalid attribute: expected '=' not '7'",
        ),
        (
            "<a x='1'y='2'/>",
            "1, column 9: invalid attribute: expected space not 'y'",
        ),
        (
            "<a 1='2'/>",
            "1, column 4: invalid attribute: invalid name token",
        ),
        (
            "<a x='<'/>",
            "1, column 7: invalid attribute: expected ''' not '<'",
        ),
        (
            "<a x='1",
            "1, column 8: invalid attribute: unexpected end of stream",
        ),
        (
            "<a></a",
            "1, column 7: invalid element: unexpected end of stream",
        ),
        (
            "<a><1/></a>",
            "1, column 4: invalid element: invalid name token",
        ),
        (
            "<a></a x>",
            "1, column 8: invalid element: expected '>' not 'x'",
        ),
        (
            "<a>\r\r]]></a>",
            "3, column 1: invalid character data: ']]>' is not allowed inside a character data",
        ),
        (
            "<a><!-- -- --></a>",
            "1, column 9: invalid comment: '--' is not allowed in comments",
        ),
        (
            "<a><!-- ---></a>",
            "1, column 9: invalid comment: comment cannot end with '-'",
        ),
        ("<a><!-- ", "1, column 9: invalid comment: expected '-->'"),
        (
            "<a>\u{1}</a>",
            "1, column 4: invalid character data: a non-XML character '\\u{1}'",
        ),
        (
            "<a é=µ/>",
            "1, column 6: invalid attribute: expected quote mark not 'µ'",
        ),
        (
            "<a x\n\n/>",
            "3, column 1: invalid attribute: expected '=' not '/'",
        ),
        (
            "<?xml version='2.0'?><a/>",
            "1, column 16: invalid XML declaration: expected '1.'",
        ),
        (
            "<!DOCTYPE a x><a/>",
            "1, column 13: invalid DTD: expected '[', '>' not 'x'",
        ),
    ] {
        assert_eq!(says(body), format!("line {words}"), "{body}");
    }
}

#[test]
fn lines_end_in_lf_cr_lf_and_cr() {
    for end in ["\n", "\r\n", "\r"] {
        let body = format!("<a>{end}µ{end}{end} é&zz;</a>");
        let error = check(body.as_bytes()).unwrap_err();
        let byte = body.find('&').unwrap();
        assert_eq!(error.place(), place(byte, 4, 3), "{end:?}");
        // and where the tokenizer tells the place: it counts by LF
        let body = format!("<a>{end}µ{end}{end} é</b");
        let body = format!("{body}{end} =></a>");
        let error = check(body.as_bytes()).unwrap_err();
        let byte = body.find('=').unwrap();
        assert_eq!(error.place(), place(byte, 5, 2), "{end:?}");
    }
    // the LF of a CR LF belongs to the line before
    assert_eq!(Place::of(b"a\r\nb", 2), place(2, 1, 3));
    assert_eq!(Place::of(b"a\r\nb", 3), place(3, 2, 1));
    assert_eq!(Place::of(b"a\n\rb", 3), place(3, 3, 1));
    assert_eq!(Place::of(b"ab", 9), place(2, 1, 3));
    // a byte order mark is no character
    assert_eq!(Place::of("\u{FEFF}<a>".as_bytes(), 3), place(3, 1, 1));
    assert_eq!(Place::of("\u{FEFF}<a>".as_bytes(), 2), place(2, 1, 1));
    assert_eq!(Place::of("a\u{FEFF}<a>".as_bytes(), 4), place(4, 1, 3));
}

#[test]
fn mismatched_and_unclosed() {
    let error = check("<p:a>\n<é>\n</p:a>".as_bytes()).unwrap_err();
    assert_eq!(
        error,
        CheckError::Mismatched {
            at: place(11, 3, 1),
            found: "p:a".to_string(),
            open: "é".to_string(),
            opened: place(6, 2, 1),
        }
    );
    assert_eq!(
        error.to_string(),
        "line 3, column 1: the end tag </p:a> stands where <é> is open, since line 2, column 1"
    );
    assert_eq!(
        check(b"<a>\n <b><c/>t"),
        Err(CheckError::Unclosed {
            at: place(13, 2, 10),
            open: "b".to_string(),
            opened: place(5, 2, 2),
        })
    );
    let cut_in_a_tag = "line 1, column 9: the body ends where <a> is open, since line 1, column 1";
    assert_eq!(says("<a x='1'"), cut_in_a_tag);
    // the first fault, though the tokenizer cannot go on behind it
    assert!(says("<a><b></a></b><<").contains("the end tag </a>"));
}

#[test]
fn repeated_attributes() {
    let body = b"<a p:x='1' x='2'\n p:x='3'/>";
    assert_eq!(
        check(body),
        Err(CheckError::Repeated {
            at: place(18, 2, 2),
            name: "p:x".to_string(),
            first: place(3, 1, 4),
        })
    );
    let words = "line 2, column 2: the attribute p:x is repeated, first at line 1, column 4";
    assert_eq!(says(body), words);
    // not the x of another tag
    let error = check(b"<a x=''><b x='' x=''/></a>").unwrap_err();
    assert!(says_first(&error, place(11, 1, 12)), "{error:?}");
}

fn says_first(error: &CheckError, expected: Place) -> bool {
    matches!(error, CheckError::Repeated { first, .. } if *first == expected)
}

#[test]
fn references_at_their_place() {
    for (body, at, reference) in [
        ("<a>&lt; &zz; &amp;</a>", 8, "&zz;"),
        ("<a x='&lt;&#0;'/>", 10, "&#0;"),
        ("<a>R&D, and more</a>", 4, "&D,"),
        ("<a>&&lt;</a>", 3, "&"),
        ("<a>&amp&lt;</a>", 3, "&amp"),
        ("<a>a&b &lt;</a>", 4, "&b"),
        ("<a>&#+65;&zz;</a>", 3, "&#+65;"),
        ("<a>µ\n &quot;\n &</a>", 15, "&"),
    ] {
        let error = check(body.as_bytes()).unwrap_err();
        let expected = CheckError::Reference {
            at: Place::of(body.as_bytes(), at),
            reference: reference.to_string(),
        };
        assert_eq!(error, expected, "{body}");
        assert_eq!(error.cause(), Some(Cause::Reference { at }));
    }
    let long = format!("<a>&{};</a>", "n".repeat(500));
    let CheckError::Reference { reference, .. } = check(long.as_bytes()).unwrap_err() else {
        panic!();
    };
    assert_eq!(reference.len(), 32);
}

fn too_large(body: &[u8]) -> (Limit, Place) {
    match check(body).unwrap_err() {
        CheckError::TooLarge { limit, at } => (limit, at),
        other => panic!("{other:?}"),
    }
}

#[test]
fn each_limit_and_where() {
    // bytes
    let body = |bytes: usize| format!("<a>{}</a>", "t".repeat(bytes - 7));
    assert!(check(body(65_536).as_bytes()).is_ok());
    let (limit, at) = too_large(body(65_537).as_bytes());
    assert_eq!((limit, at), (Limit::Bytes, place(65_536, 1, 65_537)));
    // a character that the limit cuts, and a bad byte before and behind it
    let cut = format!("<a>{}é</a>", "t".repeat(65_532));
    assert_eq!(too_large(cut.as_bytes()).0, Limit::Bytes);
    let bad = [&[b't'; 100], &b"\xFF"[..], &[b't'; 70_000]].concat();
    assert_eq!(
        check(&bad).unwrap_err(),
        CheckError::NotUtf8 {
            at: place(100, 1, 101)
        }
    );
    let bad = [&[b't'; 70_000], &b"\xFF"[..]].concat();
    assert_eq!(too_large(&bad).0, Limit::Bytes);
    // rows
    let body = |rows: usize| format!("<a>{}</a>", "<!---->".repeat(rows - 3));
    assert!(check(body(8_192).as_bytes()).is_ok());
    let (limit, at) = too_large(body(8_193).as_bytes());
    assert_eq!((limit, at.byte), (Limit::Rows, 3 + 7 * 8_190));
    let body = format!("<a {}/>", "x='' ".repeat(8_192));
    let (limit, at) = too_large(body.as_bytes());
    assert_eq!((limit, at.byte), (Limit::Rows, 3 + 5 * 8_191));
    // open elements
    let body = |deep: usize| format!("{}\n<b/>{}", "<a>".repeat(deep), "</a>".repeat(deep));
    assert!(check(body(255).as_bytes()).is_ok());
    let (limit, at) = too_large(body(256).as_bytes());
    assert_eq!((limit, at), (Limit::Open, place(769, 2, 1)));
    let words = "line 2, column 1: more than 256 open elements";
    assert_eq!(says(body(256)), words);
}

#[test]
fn tables_are_bounded() {
    for body in [
        "<a>".repeat(3_333_333),
        "<a>".repeat(21_000),
        format!("<a>{}", "<b/>".repeat(16_000)),
        format!("<a {}", "x='' ".repeat(13_000)),
    ] {
        let made = table::from_tokens(body.as_bytes());
        assert!(made.rows.len() <= 8_193, "{}", made.rows.len());
        let refused = drain(body.as_bytes(), &made.rows, made.end);
        assert_eq!(refused, Err(Refusal::Table));
    }
}

#[test]
fn errors_are_errors() {
    let error: Box<dyn std::error::Error + Send + Sync> = Box::new(check(b"<a").unwrap_err());
    assert!(error.to_string().starts_with("line 1, column 3: "));
    assert_eq!(CheckError::Empty.place(), place(0, 1, 1));
    assert_eq!(
        CheckError::Table.to_string(),
        "the token table breaks a rule"
    );
}

/// Bodies with a few characters changed: `check` passes what the drain passes, if it has an
/// element, tells the drain's cause, and a place in the body.
#[test]
fn damaged_bodies() {
    const DAMAGE: [&str; 17] = [
        "",
        "<",
        ">",
        "/",
        "'",
        "&",
        ";",
        " ",
        "\r",
        "\n",
        "]]>",
        "--",
        "<b",
        "\u{1}",
        "é",
        "=",
        " b='1' b='2'",
    ];
    let mut random = Random(23);
    let (mut pass, mut fail) = (0, [0; 5]);
    for _ in 0..10_000 {
        let mut characters: Vec<String> = body(&mut random).chars().map(String::from).collect();
        for _ in 0..random.below(3) {
            let at = random.below(characters.len());
            characters[at] = random.pick(&DAMAGE).to_string();
        }
        let mut body = characters.concat().into_bytes();
        if random.below(4) == 0 {
            body.truncate(random.below(body.len() + 1));
        }
        let made = table::from_tokens(&body);
        let drained = drain(&body, &made.rows, made.end);
        match check(&body) {
            Ok(upload) => {
                pass += 1;
                assert_eq!(drained, Ok(()));
                assert_eq!(upload.rows(), made.rows);
            }
            Err(error) => {
                let place = error.place();
                assert_eq!(place, Place::of(&body, place.byte));
                assert!(!error.to_string().contains(['\n', '\r']), "{error}");
                match (drained, error.cause()) {
                    (Err(Refusal::IllFormed { cause, .. }), Some(told)) => {
                        assert_eq!(told, cause);
                        fail[told.number() as usize - 1] += 1;
                    }
                    (drained, told) => {
                        let no_element = made.rows.iter().all(|row| row.kind == 7);
                        assert!(drained == Ok(()) && told.is_none() && no_element, "{error}");
                    }
                }
            }
        }
    }
    assert!(
        pass > 1_000 && fail.iter().all(|count| *count > 20),
        "{pass} {fail:?}"
    );
}
