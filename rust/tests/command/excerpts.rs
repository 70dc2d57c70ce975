//! The line of a fault with a caret under the place, and limits in words.

use crate::common::{piped, says, upload};
use std::ffi::OsStr;
use std::os::unix::ffi::OsStrExt;

/// The lines of what is said of a body.
fn lines(body: impl AsRef<[u8]>) -> Vec<String> {
    says(body).lines().map(String::from).collect()
}

#[test]
fn a_caret_under_the_place() {
    let said = lines("<core>\n <bark id=7/>\n</core>");
    assert_eq!(
        said[0],
        "-:2:11: invalid attribute: expected quote mark not '7'"
    );
    assert_eq!(said[1..], ["  2 |  <bark id=7/>", "    |           ^"]);
}

#[test]
fn both_names_and_where_the_element_opened() {
    let said = lines("<core>\n <id>7\n</core>");
    assert_eq!(
        said,
        [
            "-:3:1: the end tag </core> stands where <id> is open, since line 2, column 2",
            "  3 | </core>",
            "    | ^",
            "opened here:",
            "  2 |  <id>7",
            "    |  ^",
        ]
    );
    // in one line the message is enough
    let said = lines("<a><b></a>");
    assert_eq!(said.len(), 3);
    assert_eq!(said[2], "    |       ^");
}

#[test]
fn an_attribute_and_the_one_before_it() {
    let said = lines("<core id='1'\n  id='2'/>");
    assert_eq!(
        said[0],
        "-:2:3: the attribute id is repeated, first at line 1, column 7"
    );
    assert_eq!(
        said[3..],
        ["first here:", "  1 | <core id='1'", "    |       ^"]
    );
}

#[test]
fn lines_end_in_lf_cr_lf_or_cr() {
    for end in ["\n", "\r\n", "\r"] {
        let said = lines(format!("<a>{end}µ &zz; b{end}</a>{end}"));
        assert_eq!(said[0], "-:2:3: the reference &zz; is bad");
        assert_eq!(said[1..], ["  2 | µ &zz; b", "    |   ^"], "{end:?}");
        // at the end of the body, behind its last line end
        let said = lines(format!("<a>{end}"));
        assert_eq!(
            said[0],
            "-:2:1: the body ends where <a> is open, since line 1, column 1"
        );
        assert_eq!(
            said[1..],
            ["  2 | ", "    | ^", "opened here:", "  1 | <a>", "    | ^"]
        );
    }
}

/// Of several references the caret stands at the `&` of the first that is bad.
#[test]
fn a_caret_under_the_bad_reference() {
    let said = lines("<a>\n <b x='&lt; &#+5; &zz;'/>\n</a>");
    assert_eq!(said[0], "-:2:13: the reference &#+5; is bad");
    let line = "  2 |  <b x='&lt; &#+5; &zz;'/>";
    assert_eq!(said[1..], [line, "    |             ^"]);
    let said = lines("<a>\n &amp; R&D &zz;\n</a>");
    assert_eq!(said[0], "-:2:9: the reference &D is bad");
    let line = "  2 |  &amp; R&D &zz;";
    assert_eq!(said[1..], [line, "    |         ^"]);
}

/// What `--text` says of a text with a bad reference.
fn of_text(text: &[u8]) -> Vec<String> {
    let ran = upload(&[OsStr::new("--text"), OsStr::from_bytes(text)]);
    assert_eq!((ran.status, ran.err.as_str()), (1, ""), "{}", ran.out);
    ran.out.lines().map(String::from).collect()
}

#[test]
fn a_caret_under_a_reference_of_a_text() {
    // for validity at the one, for unescaping at the other
    let said = of_text("forty\nlines &lt;\n &#+65; µ &zz; &".as_bytes());
    let line = "  3 |  &#+65; µ &zz; &";
    assert_eq!(
        said,
        [
            "references: not valid: line 3, column 2: a reference is bad",
            line,
            "    |  ^",
            "unescaped: refused: line 3, column 11: a reference is bad",
            line,
            "    |           ^",
        ]
    );
    // what is not UTF-8 has the columns in which it is shown, also a byte that would go on with a
    // character
    let said = of_text(b"7 \xB5m \xC3& b");
    assert_eq!(said[1], "  1 | 7 \u{FFFD}m \u{FFFD}& b");
    assert_eq!(said[2], "    |       ^");
    assert!(said[0].contains(": line 1, column 7: "), "{}", said[0]);
}

#[test]
fn tabs_are_kept() {
    let said = lines("<a>\tb\t&zz;</a>");
    assert_eq!(said[1..], ["  1 | <a>\tb\t&zz;</a>", "    |    \t \t^"]);
}

#[test]
fn wide_characters_take_two_cells() {
    let said = lines("<a>年輪&zz;</a>");
    assert_eq!(said[0], "-:1:6: the reference &zz; is bad");
    assert_eq!(said[2], "    |        ^");
    // an accent that is a character of its own takes none
    let said = lines("<a>e\u{301}&zz;</a>");
    assert_eq!(said[0], "-:1:6: the reference &zz; is bad");
    assert_eq!(said[2], "    |     ^");
}

#[test]
fn a_byte_order_mark_has_no_column() {
    let said = lines("\u{FEFF}<a>&zz;</a>");
    assert_eq!(said[0], "-:1:4: the reference &zz; is bad");
    assert_eq!(said[1..], ["  1 | <a>&zz;</a>", "    |    ^"]);
}

#[test]
fn long_lines_are_cut_around_the_place() {
    let front = format!("<a>&zz;{}</a>", "x".repeat(200));
    let said = lines(front);
    assert_eq!(said[1], format!("  1 | <a>&zz;{}..", "x".repeat(69)));
    assert_eq!(said[2], "    |    ^");

    let middle = format!("<a>{}&zz;{}</a>", "年".repeat(100), "y".repeat(100));
    let said = lines(middle);
    assert_eq!(said[0], "-:1:104: the reference &zz; is bad");
    assert_eq!(
        said[1],
        format!("  1 | ..{}&zz;{}..", "年".repeat(38), "y".repeat(34))
    );
    assert_eq!(said[2], format!("    |   {}^", "  ".repeat(38)));

    let end = format!("<a>{}", "z".repeat(200));
    let said = lines(end);
    assert_eq!(said[1], format!("  1 | ..{}", "z".repeat(76)));
    assert_eq!(said[2], format!("    |   {}^", " ".repeat(76)));
}

#[test]
fn control_characters_do_no_harm() {
    let said = says("<a>\x1B[31m\0\x7F\u{9B}\u{202E}</a>");
    assert!(
        said.contains("  1 | <a>\u{241B}[31m\u{2400}\u{2421}\u{FFFD}\u{FFFD}</a>\n"),
        "{said}"
    );
    let said = says(b"<a>\x1B\xFF\x07");
    assert!(
        said.contains("  1 | <a>\u{241B}\u{FFFD}\u{2407}\n    |     ^\n"),
        "{said}"
    );
    // nor do they in a name or a reference that the message tells
    for body in [
        "<a>&\u{9B}2J;</a>",
        "<a b\u{85}='1'/>",
        "<a>&\u{61C};</a>",
        "<a>&\u{202E};</a>",
    ] {
        let said = says(body);
        let is_safe = |c: char| c == '\n' || !c.is_control() && c != '\u{202E}' && c != '\u{61C}';
        assert!(said.chars().all(is_safe), "{said:?}");
    }
}

#[test]
fn limits_in_words() {
    let said = lines("<a>\n".repeat(300));
    assert_eq!(said[0], "-:257:1: more than 256 open elements");
    assert_eq!(said[1..], ["  257 | <a>", "      | ^"]);

    let many = format!("<a>{}</a>", "<b/>\n".repeat(5_000));
    assert_eq!(lines(many)[0], "-:2731:1: more than 8,192 tokens");

    let long = format!("<a>\n{}</a>", "x".repeat(70_000));
    let said = lines(long);
    assert_eq!(said[0], "-:2:65533: more than 65,536 bytes");
    assert_eq!(said[1], format!("  2 | ..{}..", "x".repeat(76)));

    // the byte that is too much stands in a character
    let long = format!("<a>{}é</a>", "x".repeat(65_532));
    let said = lines(long);
    assert_eq!(said[0], "-:1:65536: more than 65,536 bytes");
    assert_eq!(said[1], format!("  1 | ..{}é</a>", "x".repeat(71)));
    assert_eq!(said[2], format!("    |   {}^", " ".repeat(71)));

    let exact = format!("<a>{}</a>", "x".repeat(65_529));
    assert_eq!(piped(&["-"], exact).status, 0);
}

#[test]
fn the_tokenizers_words() {
    for (body, said) in [
        ("<a/><b/>", "-:1:5: unknown token"),
        ("<a/", "-:1:4: invalid attribute: unexpected end of stream"),
        (
            "<!DOCTYPE\n\n 5>\n<a/>",
            "-:3:2: invalid DTD: invalid name token",
        ),
        (
            "<!DOCTYPE a [\n<!ENTITY 5 'x'>]><a/>",
            "-:2:10: invalid DTD entity: invalid name token",
        ),
        (
            "<a><?\n5?></a>",
            "-:2:1: invalid processing instruction: invalid name token",
        ),
        (
            "<a><!-- -- --></a>",
            "-:1:9: invalid comment: '--' is not allowed in comments",
        ),
        (
            "<a>]]></a>",
            "-:1:4: invalid character data: ']]>' is not allowed inside a character data",
        ),
    ] {
        assert_eq!(lines(body)[0], said);
    }
}
