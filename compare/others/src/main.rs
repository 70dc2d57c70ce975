//! Times an upload from bytes to a verdict, beside the Rust, quick-xml and roxmltree and,
//! with the feature `c-parsers`, beside expat and libxml2. Build it with `--profile speed`.
//!
//! Both crates take text, so the test that a body is UTF-8 is part of their time.

use compare::upload_times::{print, Parser};
use quick_xml::events::{BytesStart, Event};
use quick_xml::Reader;
use std::str::from_utf8;

const CRATES: [Parser; 2] = [
    Parser {
        name: "quick-xml",
        passes: |body| from_utf8(body).is_ok_and(quick_xml),
    },
    Parser {
        name: "roxmltree",
        passes: |body| from_utf8(body).is_ok_and(roxmltree),
    },
];

/// The nearest that quick-xml has to a check: its tests of end tags, comments and repeated
/// attributes are on, and references are replaced, since only so are they tested. At the
/// end it says nothing of elements that are still open, so they are counted here.
fn quick_xml(text: &str) -> bool {
    let mut reader = Reader::from_str(text);
    reader.check_end_names(true).check_comments(true);
    let mut open = 0;
    loop {
        let passes = match reader.read_event() {
            Ok(Event::Start(tag)) => {
                open += 1;
                attributes_pass(&tag)
            }
            Ok(Event::Empty(tag)) => attributes_pass(&tag),
            Ok(Event::End(_)) => {
                open -= 1;
                true
            }
            Ok(Event::Text(text)) => text.unescape().is_ok(),
            Ok(Event::Eof) => return open == 0,
            Ok(_) => true,
            Err(_) => false,
        };
        if !passes {
            return false;
        }
    }
}

fn attributes_pass(tag: &BytesStart<'_>) -> bool {
    let mut attributes = tag.attributes();
    attributes.all(|attribute| attribute.is_ok_and(|found| found.unescape_value().is_ok()))
}

/// It has no other way than its tree.
fn roxmltree(text: &str) -> bool {
    roxmltree::Document::parse(text).is_ok()
}

fn main() {
    print(&CRATES);
}
