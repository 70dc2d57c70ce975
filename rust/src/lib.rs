//! Falzheod, an XML decoding core, for Rust.
//!
//! Field teams upload measured tree cores. The old service handed members on while it was
//! still reading: of an upload cut short the front half stayed, and every later match came out
//! a season late. `import` hands on all of an upload or nothing (feature `xmlparser`):
//!
//! ```
//! # #[cfg(feature = "xmlparser")] {
//! use falzheod::{import, Member, Settings, StructSheet};
//!
//! let sheet = StructSheet::builder("core")
//!     .member(Member::new("id").attribute())
//!     .member(Member::new("bark"))
//!     .build()?;
//! let upload = b"<core id='17'>\n <bark>whole</bark>\n</core>";
//!
//! // the root's name is tested too
//! let settings = Settings::default().enforce_strictness(true);
//!
//! // the closure runs only if the whole upload is well-formed and was read
//! let mut kept = Vec::new();
//! import(upload, &sheet, &settings, |entries| {
//!     kept.extend(entries.filter_map(|entry| entry.as_str().map(String::from)));
//! })?;
//! assert_eq!(kept, ["17", "whole"]);
//!
//! // cut short: refused with its place, and nothing was handed on
//! let cut = &upload[..upload.len() - 1];
//! let error = import(cut, &sheet, &settings, |_| unreachable!()).unwrap_err();
//! # let error: falzheod::ImportError = error;
//! assert_eq!(
//!     error.to_string(),
//!     "line 3, column 7: invalid element: unexpected end of stream"
//! );
//! # }
//! # Ok::<(), Box<dyn std::error::Error>>(())
//! ```
//!
//! The text of a scalar is the first text in its element, as in the Rust crate: what stands
//! behind a comment, an instruction, a CDATA section or a tag in it is not read, and CDATA
//! is no text ([`Upload::whole_text`] joins all texts of a root).
//!
//! The crate lends slices to the static library `libfalzheod.a`, whose every answer is
//! proved; the crate itself is the part that is not. It takes any bytes and does not panic.
//!
//! - `check` (feature `xmlparser`) makes a body's token table and drains it: an [`Upload`],
//!   or a [`CheckError`] with the byte, line and column of the fault.
//! - [`Upload`] has the readings, by a [`StructSheet`], a [`ListSheet`] or a [`MapSheet`]. A
//!   [`Reading`] is a list of [`Entry`]; a [`Piece`] among them is read again as an upload of
//!   its own, without being tokenized again.
//! - [`lent`] has the same readings over tables and sheets of any content, into buffers of
//!   one's own, and [`drain`] the test of any table.
//! - [`unescape`] and [`validate_references`] are the operations on references in a text.

#![warn(missing_docs)]
#![deny(unsafe_code)]

#[cfg(feature = "xmlparser")]
mod check;
mod check_error;
mod drain;
mod entry;
mod group;
#[cfg(feature = "xmlparser")]
mod import;
pub mod lent;
mod limit;
mod piece;
mod place;
mod reading;
mod readings;
mod references;
mod refusal;
mod row;
mod settings;
mod sheet;
pub mod sys;
#[cfg(feature = "xmlparser")]
pub mod table;
mod texts;
#[cfg(feature = "xmlparser")]
mod tokenizer_words;
mod upload;

#[cfg(feature = "xmlparser")]
pub use check::{check, Checker};
pub use check_error::CheckError;
pub use drain::{drain, drain_numbers, Cause};
pub use entry::Entry;
pub use group::Group;
#[cfg(feature = "xmlparser")]
pub use import::{import, ImportError};
pub use limit::Limit;
pub use piece::Piece;
pub use place::Place;
pub use reading::{Entries, Reading};
pub use references::{is_utf8, unescape, unescape_to_vec, validate_references};
pub use refusal::Refusal;
pub use row::Row;
pub use settings::Settings;
pub use sheet::{
    ListBuilder, ListSheet, MapBuilder, MapSheet, Member, Sheet, SheetError, StructBuilder,
    StructSheet, MOST_MEMBERS, MOST_NAME_BYTES,
};
pub use texts::{text_boolean, text_integer, text_string, Text};
pub use upload::Upload;
