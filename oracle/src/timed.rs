//! The readings for times: the codec and the schema are made once, and what a reading
//! hands out is counted and let go. So a call costs what the Rust's own reading costs,
//! and an empty consumer.

use crate::codec::{XmlCodec, XmlDeserializer};
use crate::numbers::of_serde;
use crate::readings;
use crate::shape::{self, Kind};
use aws_smithy_schema::codec::Codec as _;
use aws_smithy_schema::serde::{SerdeError, ShapeDeserializer};
use aws_smithy_schema::Schema;
use std::hint::black_box;

/// The maximum depth of the Rust's default settings.
const MAXIMUM: &str = "128";

/// The Rust's settings, made ready.
pub struct Codec(XmlCodec);

impl Codec {
    /// By the sum of the flags, as the questions have them.
    pub fn new(flags: u32) -> Self {
        Codec(readings::codec(&flags.to_string(), MAXIMUM).expect("flags of 0 to 7"))
    }

    pub fn boolean(&self, body: &[u8]) -> Result<bool, u32> {
        self.scalar(body, |reader| reader.read_boolean(&Schema::default()))
    }

    pub fn integer(&self, body: &[u8]) -> Result<i32, u32> {
        self.scalar(body, |reader| reader.read_integer(&Schema::default()))
    }

    pub fn string(&self, body: &[u8]) -> Result<String, u32> {
        self.scalar(body, |reader| reader.read_string(&Schema::default()))
    }

    fn scalar<'b, T>(
        &self,
        body: &'b [u8],
        read: impl FnOnce(&mut XmlDeserializer<'b>) -> Result<T, SerdeError>,
    ) -> Result<T, u32> {
        read(&mut self.0.create_deserializer(body)).map_err(|error| of_serde(&error))
    }

    /// What `with` makes of a function that reads a body by the sheet, at depth 0, and
    /// tells how many members, items or map entries were handed out.
    pub fn with_reading<R>(
        &self,
        kind: Kind,
        sheet: &[u8],
        with: impl FnOnce(&dyn Fn(&[u8]) -> Result<usize, u32>) -> R,
    ) -> R {
        shape::with_schema(kind, sheet, |schema| {
            with(&|body| self.count(kind, schema, body))
        })
        .expect("names that are UTF-8")
        .expect("a sheet that is not broken")
    }

    fn count(&self, kind: Kind, schema: &Schema<'_>, body: &[u8]) -> Result<usize, u32> {
        let mut count = 0;
        let mut reader = self.0.create_deserializer(body);
        shape::read(kind, schema, &mut reader, |index, key, handed| {
            black_box((index, key, handed));
            count += 1;
        })
        .map_err(|error| of_serde(&error))?;
        Ok(count)
    }
}
