//! The questions of README.md, one line each, and their answers.

use crate::codec::XmlDeserializer;
use crate::hex::{bytes, hex, utf8};
use crate::readings::{codec, entry, find, reading};
use crate::shape::{self, with_schema, Handed, Kind};
use crate::table::{drain, table, Table};
use crate::{unescape, validate_references};
use aws_smithy_schema::serde::{SerdeError, ShapeDeserializer};
use aws_smithy_schema::Schema;

/// The answer line to one question line; `bad ...` for what is no question.
pub fn answer(line: &str) -> String {
    let fields: Vec<&str> = line.split_ascii_whitespace().collect();
    asked(&fields).unwrap_or_else(|problem| format!("bad {problem}"))
}

fn asked(fields: &[&str]) -> Result<String, String> {
    match fields {
        ["unescape", text] => Ok(match unescape(&utf8(text)?) {
            Ok(result) => format!("ok {}", hex(result.as_bytes())),
            Err(error) => format!("refuse {}", error.number()),
        }),
        ["validate", text] => Ok(match validate_references(&utf8(text)?) {
            Ok(()) => "ok".to_string(),
            Err(error) => format!("refuse {}", error.number()),
        }),
        ["table", body] => Ok(written(&table(&bytes(body)?))),
        ["drain", body] => Ok(match drain(&bytes(body)?) {
            Ok(()) => "ok".to_string(),
            Err((row, cause)) => format!("refuse 9 {row} {cause}"),
        }),
        ["find", body, name] => Ok(match find(&bytes(body)?, &utf8(name)?) {
            Some((start, length)) => format!("ok {start} {length}"),
            None => "refuse 13".to_string(),
        }),
        [word, body, sheet, flags, depth, maximum] => {
            let kind = Kind::of(word).ok_or("question")?;
            let call = Call::new(body, flags, depth, maximum)?;
            by_sheet(kind, &call, &bytes(sheet)?)
        }
        [kind @ ("bool" | "int" | "string" | "double"), body, flags, depth, maximum] => {
            let call = Call::new(body, flags, depth, maximum)?;
            call.read(|reader, entries| {
                entries.push(scalar(kind, reader)?);
                Ok(())
            })
        }
        [kind @ ("textbool" | "textint" | "textstring" | "textdouble"), text] => {
            text_scalar(&kind["text".len()..], &utf8(text)?)
        }
        _ => Err("question".to_string()),
    }
}

fn written(table: &Table) -> String {
    let rows = table.rows.iter().map(|row| {
        let numbers: Vec<String> = row.iter().map(u32::to_string).collect();
        format!(" {}", numbers.join(","))
    });
    format!("ok {}{}", table.end, rows.collect::<String>())
}

/// What each reading is given beside its sheet.
struct Call<'q> {
    body: Vec<u8>,
    flags: &'q str,
    depth: &'q str,
    maximum: &'q str,
}

impl<'q> Call<'q> {
    fn new(body: &str, flags: &'q str, depth: &'q str, maximum: &'q str) -> Result<Self, String> {
        let body = bytes(body)?;
        Ok(Call {
            body,
            flags,
            depth,
            maximum,
        })
    }

    fn read<'b>(
        &'b self,
        read: impl FnOnce(&mut XmlDeserializer<'b>, &mut Vec<String>) -> Result<(), SerdeError>,
    ) -> Result<String, String> {
        reading(
            &codec(self.flags, self.maximum)?,
            &self.body,
            self.depth,
            read,
        )
    }

    fn entry(&self, index: usize, key: &str, handed: &mut dyn ShapeDeserializer) -> String {
        entry(&self.body, self.depth, index, key, handed)
    }
}

/// One of the four readings with a sheet.
fn by_sheet(kind: Kind, call: &Call<'_>, sheet: &[u8]) -> Result<String, String> {
    let read = with_schema(kind, sheet, |schema| {
        call.read(|reader, entries| {
            shape::read(kind, schema, reader, |index, key, handed| {
                entries.push(match handed {
                    Handed::Reader(reader) => call.entry(index, key, reader),
                    Handed::Text(text) => format!("1,0,-,{}", hex(text.as_bytes())),
                })
            })
        })
    });
    read?.unwrap_or_else(|| Ok("refuse 2".to_string()))
}

/// A text taken from an entry, read as a scalar.
fn text_scalar(kind: &str, text: &str) -> Result<String, String> {
    reading(&codec("0", "128")?, b"", "1", |reader, entries| {
        reader.oracle_set_text(text);
        entries.push(scalar(kind, reader)?);
        Ok(())
    })
}

fn scalar(kind: &str, reader: &mut XmlDeserializer<'_>) -> Result<String, SerdeError> {
    let schema = Schema::default();
    Ok(match kind {
        "bool" => reader.read_boolean(&schema)?.to_string(),
        "int" => reader.read_integer(&schema)?.to_string(),
        "string" => hex(reader.read_string(&schema)?.as_bytes()),
        "double" => format!("{:016x}", reader.read_double(&schema)?.to_bits()),
        _ => unreachable!(),
    })
}
