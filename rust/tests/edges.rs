//! The bodies at the edges that document 01 marks for references, and what a
//! caller of the wrapper relies on.

use falzheod::{is_utf8, unescape, unescape_to_vec, validate_references, Refusal};

/// Text, whether it is valid, and what it unescapes to.
const EDGES: [(&str, bool, Option<&[u8]>); 8] = [
    ("&#x41;&lt;", true, Some(b"A<")),
    ("&#+65;", false, Some(b"A")),
    ("&#0;", false, Some(b"\0")),
    ("&#xD800;", false, None),
    ("&#x110000;", false, None),
    ("&#x10FFFF;", true, Some(b"\xF4\x8F\xBF\xBF")),
    ("&#xFFFE;", false, Some(b"\xEF\xBF\xBE")),
    ("a&b", false, None),
];

/// The refusal of a text whose first `&` fails.
fn first(text: &str) -> Refusal {
    let at = text.find('&').unwrap();
    Refusal::Reference { at }
}

#[test]
fn edges_of_validate() {
    for (text, valid, _) in EDGES {
        let expected = if valid { Ok(()) } else { Err(first(text)) };
        assert_eq!(validate_references(text.as_bytes()), expected, "{text}");
    }
}

#[test]
fn edges_of_unescape() {
    for (text, _, result) in EDGES {
        let expected = result.map(<[u8]>::to_vec).ok_or(first(text));
        assert_eq!(unescape_to_vec(text.as_bytes()), expected, "{text}");
    }
}

#[test]
fn five_names_and_no_other() {
    let all = b"&lt;&gt;&amp;&quot;&apos;";
    assert_eq!(unescape_to_vec(all).unwrap(), b"<>&\"'");
    for bad in [
        "&LT;", "&;", "&nbsp;", "&lt", "& lt;", "&amp&lt;", "&#;", "&#x;", "&#X41;",
    ] {
        let text = bad.as_bytes();
        assert_eq!(unescape_to_vec(text), Err(first(bad)), "{bad}");
        assert_eq!(validate_references(text), Err(first(bad)), "{bad}");
    }
}

/// Where a text fails validation and where unescaping, which takes more: in bytes.
#[test]
fn places_of_both() {
    for (text, invalid, refused) in [
        ("&#+65;&zz;", 0, 6),
        ("&#0; &#xD800;", 0, 5),
        ("a &lt; b &zz; c &yy;", 9, 9),
        ("µm & µm", 4, 4),
        ("forty\nlines\n&lt;\n&amp &lt;", 17, 17),
        ("&amp;&amp;&", 10, 10),
    ] {
        let bytes = text.as_bytes();
        let at = |at| Refusal::Reference { at };
        assert_eq!(validate_references(bytes), Err(at(invalid)), "{text}");
        assert_eq!(unescape_to_vec(bytes), Err(at(refused)), "{text}");
    }
}

#[test]
fn places_behind_long_texts() {
    for at in (0..200).chain([65_535, 70_000]) {
        let text = "x".repeat(at) + "&";
        assert_eq!(validate_references(text.as_bytes()), Err(first(&text)));
        assert_eq!(unescape(text.as_bytes(), &mut []), Err(first(&text)));
    }
}

#[test]
fn the_bad_reference_comes_before_room() {
    let bad = Refusal::Reference { at: 12 };
    assert_eq!(unescape(b"long enough &zz;", &mut []), Err(bad));
    assert_eq!(unescape(b"long enough &lt;", &mut []), Err(Refusal::NoRoom));
}

#[test]
fn room_that_is_just_enough_and_one_less() {
    let text = b"core &#xB5; 7";
    let mut out = [b'.'; 9];
    assert_eq!(unescape(text, &mut out[..8]), Err(Refusal::NoRoom));
    assert_eq!(&out, b".........");
    assert_eq!(unescape(text, &mut out), Ok(9));
    assert_eq!(out, "core µ 7".as_bytes());
}

#[test]
fn bytes_behind_the_result_are_untouched() {
    for length in 0..200 {
        let text = vec![b'r'; length];
        let mut out = vec![b'.'; length + 70];
        assert_eq!(unescape(&text, &mut out), Ok(length));
        assert_eq!(&out[..length], &text[..]);
        assert!(out[length..].iter().all(|byte| *byte == b'.'), "{length}");
    }
}

#[test]
fn the_empty_text_needs_no_room() {
    assert_eq!(unescape(b"", &mut []), Ok(0));
    assert_eq!(unescape_to_vec(b"").unwrap(), b"");
    assert_eq!(validate_references(b""), Ok(()));
    assert!(is_utf8(b""));
}

#[test]
fn bytes_that_are_not_utf8_are_copied() {
    let text = b"\xFF&gt;\x80\xC3";
    assert!(!is_utf8(text));
    assert_eq!(validate_references(text), Ok(()));
    assert_eq!(unescape_to_vec(text).unwrap(), b"\xFF>\x80\xC3");
}

/// Every first and second byte, where table 3-7 has all its special cases.
#[test]
fn utf8_is_what_std_says() {
    for pair in 0..=u16::MAX {
        for tail in [&b""[..], b"a", b"\x80", b"\xBF\xBF", b"\x80\xC0"] {
            let text = [&pair.to_be_bytes(), tail].concat();
            let expected = std::str::from_utf8(&text).is_ok();
            assert_eq!(is_utf8(&text), expected, "{text:x?}");
        }
    }
}

#[test]
fn refusals_speak() {
    let bad = Refusal::Reference { at: 40 };
    assert_eq!(bad.to_string(), "the reference at byte 40 is bad");
    assert_eq!((bad.number(), Refusal::NoRoom.number()), (7, 10));
    let error: Box<dyn std::error::Error> = Box::new(Refusal::NoRoom);
    assert_eq!(
        error.to_string(),
        "the result does not fit into the room lent for it"
    );
}
