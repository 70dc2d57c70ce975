//! Two parsers in C that a user could pick instead, expat and libxml2, for times (feature
//! `c-parsers`): whether each takes a body.

use crate::upload_times::Parser;
use std::ffi::{c_char, c_int, c_uint, c_void};
use std::ptr::{null, null_mut};

/// Expat without a handler; libxml2 with its tree, which is what its users call, and
/// without.
pub const ALL: [Parser; 3] = [
    Parser {
        name: "expat",
        passes: expat,
    },
    Parser {
        name: "libxml2 tree",
        passes: libxml2_tree,
    },
    Parser {
        name: "libxml2 SAX",
        passes: libxml2_sax,
    },
];

#[link(name = "expat")]
extern "C" {
    fn XML_ParserCreate(encoding: *const c_char) -> *mut c_void;
    fn XML_Parse(parser: *mut c_void, bytes: *const c_char, count: c_int, last: c_int) -> c_int;
    fn XML_ParserFree(parser: *mut c_void);
}

#[link(name = "xml2")]
extern "C" {
    fn xmlReadMemory(
        bytes: *const c_char,
        count: c_int,
        url: *const c_char,
        encoding: *const c_char,
        options: c_int,
    ) -> *mut c_void;
    fn xmlFreeDoc(document: *mut c_void);
    fn xmlSAXUserParseMemory(
        handlers: *mut Handlers,
        user: *mut c_void,
        bytes: *const c_char,
        count: c_int,
    ) -> c_int;
}

/// `XML_STATUS_OK` of expat.
const OK: c_int = 1;

/// `XML_PARSE_NOERROR`, `XML_PARSE_NOWARNING` (nothing is printed) and `XML_PARSE_NONET` of
/// libxml2.
const QUIETLY: c_int = 1 << 5 | 1 << 6 | 1 << 11;

/// `XML_SAX2_MAGIC` of libxml2: the handlers are those of its second version.
const SECOND: c_uint = 0xDEED_BEAF;

/// The `xmlSAXHandler` of libxml2, with no handler in it.
#[repr(C)]
struct Handlers {
    first: [*mut c_void; 27],
    version: c_uint,
    second: [*mut c_void; 4],
}

fn count(body: &[u8]) -> c_int {
    c_int::try_from(body.len()).expect("a body of less than 2 GiB")
}

/// A new parser, the whole body at once.
fn expat(body: &[u8]) -> bool {
    // SAFETY: the parser is live until it is freed, once; the body is only read, and during
    // the call alone.
    unsafe {
        let parser = XML_ParserCreate(null());
        assert!(!parser.is_null(), "expat: no memory");
        let status = XML_Parse(parser, body.as_ptr().cast(), count(body), 1);
        XML_ParserFree(parser);
        status == OK
    }
}

fn libxml2_tree(body: &[u8]) -> bool {
    // SAFETY: the body is only read, and during the call alone; the tree is freed once.
    unsafe {
        let bytes = body.as_ptr().cast();
        let tree = xmlReadMemory(bytes, count(body), null(), null(), QUIETLY);
        xmlFreeDoc(tree);
        !tree.is_null()
    }
}

fn libxml2_sax(body: &[u8]) -> bool {
    let mut handlers = Handlers {
        first: [null_mut(); 27],
        version: SECOND,
        second: [null_mut(); 4],
    };
    // SAFETY: the handlers have the layout of the C struct and outlive the call, which does
    // not keep them; the body is only read, and during the call alone.
    let status = unsafe {
        let bytes = body.as_ptr().cast();
        xmlSAXUserParseMemory(&mut handlers, null_mut(), bytes, count(body))
    };
    status == 0
}
