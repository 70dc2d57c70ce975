//! The readings by a sheet, as the Rust runs them: for the questions, which write down
//! what is handed out, and for times, where it is only counted.

use crate::codec::XmlDeserializer;
use crate::sheet;
use aws_smithy_schema::serde::{SerdeError, ShapeDeserializer};
use aws_smithy_schema::Schema;

#[derive(Clone, Copy, Debug, PartialEq, Eq)]
pub enum Kind {
    Struct,
    List,
    Map,
    Strings,
}

impl Kind {
    pub const ALL: [Kind; 4] = [Kind::Struct, Kind::List, Kind::Map, Kind::Strings];

    /// The first word of its questions.
    pub fn word(self) -> &'static str {
        match self {
            Kind::Struct => "struct",
            Kind::List => "list",
            Kind::Map => "map",
            Kind::Strings => "strings",
        }
    }

    pub(crate) fn of(word: &str) -> Option<Self> {
        Kind::ALL.into_iter().find(|kind| kind.word() == word)
    }
}

/// What `f` makes of the sheet's schema; `Ok(None)` where the sheet is broken.
pub(crate) fn with_schema<R>(
    kind: Kind,
    sheet: &[u8],
    f: impl FnOnce(&Schema<'_>) -> R,
) -> Result<Option<R>, String> {
    Ok(match kind {
        Kind::Struct => sheet::structure(sheet)?.map(|sheet| sheet.with_schema(f)),
        Kind::Map => sheet::map(sheet)?.map(|sheet| sheet.with_schema(f)),
        Kind::List | Kind::Strings => sheet::list(sheet)?.map(|sheet| sheet.with_schema(f)),
    })
}

/// A consumer is handed a reader; a string list gives its texts.
pub(crate) enum Handed<'h> {
    Reader(&'h mut dyn ShapeDeserializer),
    Text(String),
}

/// One reading; `see` gets the member's index, the key, and what is handed out.
pub(crate) fn read(
    kind: Kind,
    schema: &Schema<'_>,
    reader: &mut XmlDeserializer<'_>,
    mut see: impl FnMut(usize, &str, Handed<'_>),
) -> Result<(), SerdeError> {
    match kind {
        Kind::Struct => reader.read_struct(schema, &mut |member, handed| {
            let index = member.member_index().expect("an index");
            see(index, "", Handed::Reader(handed));
            Ok(())
        }),
        Kind::List => reader.read_list(schema, &mut |handed| {
            see(0, "", Handed::Reader(handed));
            Ok(())
        }),
        Kind::Map => reader.read_map(schema, &mut |key, handed| {
            see(0, &key, Handed::Reader(handed));
            Ok(())
        }),
        Kind::Strings => {
            for text in reader.read_string_list(schema)? {
                see(0, "", Handed::Text(text));
            }
            Ok(())
        }
    }
}
