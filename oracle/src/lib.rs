//! The oracle: runs aws-smithy-xml 0.64.1's own source.
//!
//! The modules `unescape`, `decode`, `codec` and `codec::deserializer` are the
//! published files, copied here unchanged by `setup.sh`. [`answer`] takes the
//! questions that README.md lists; [`unescape`] and [`validate_references`] are
//! the two functions of `src/unescape.rs` for Rust programs to call, and [`table`]
//! makes tables and drains for them.

#![allow(dead_code, unused_imports, non_local_definitions)]

// The four files are compiled as they are, but two private fields of
// `XmlDeserializer` have to be seen from outside: the depth (to start a call at
// a given depth) and what a consumer was handed (input or text). The files call
// `debug_assert!` twice, and a macro is expanded where it is called. So the
// crate has a `debug_assert!` of its own: it asserts where std's does, and at the
// one call in `leave_aggregate` it also declares four methods. Nothing else changes.
macro_rules! debug_assert {
    ($condition:expr, "leave_aggregate without enter_aggregate") => {
        impl<'a> XmlDeserializer<'a> {
            pub(crate) fn oracle_set_depth(&mut self, depth: u32) {
                self.depth = depth;
            }
            pub(crate) fn oracle_depth(&self) -> u32 {
                self.depth
            }
            pub(crate) fn oracle_set_text(&mut self, text: &'a str) {
                self.text = Some(Ok(Cow::Borrowed(text)));
            }
            pub(crate) fn oracle_handed(&self) -> (&'a [u8], Option<Result<&str, &SerdeError>>) {
                let text = match &self.text {
                    None => None,
                    Some(Ok(text)) => Some(Ok(text.as_ref())),
                    Some(Err(error)) => Some(Err(error)),
                };
                (self.input, text)
            }
        }
        ::core::debug_assert!($condition, "leave_aggregate without enter_aggregate")
    };
    ($($all:tt)*) => { ::core::debug_assert!($($all)*) };
}

mod codec;
mod decode;
pub mod hex;
mod numbers;
mod questions;
mod readings;
mod shape;
mod sheet;
pub mod table;
pub mod timed;
mod unescape;

pub use questions::answer;
pub use readings::find;
pub use shape::Kind;

use std::borrow::Cow;

/// What the Rust refused, kept as its own error.
#[derive(Debug)]
pub struct Refused(decode::XmlDecodeError);

impl Refused {
    /// The number that document 01 gives to this error.
    pub fn number(&self) -> u32 {
        numbers::of_decode(&self.0)
    }
}

/// `unescape` of src/unescape.rs.
pub fn unescape(text: &str) -> Result<Cow<'_, str>, Refused> {
    unescape::unescape(text).map_err(Refused)
}

/// `validate_references` of src/unescape.rs.
pub fn validate_references(text: &str) -> Result<(), Refused> {
    unescape::validate_references(text).map_err(Refused)
}
