//! The small tool that makes a sheet's text into its bytes, in hexadecimal, and back.

use crate::files::Source;
use crate::output::{trouble, Output};
use crate::sheet::{self, Shape, Sheets};
use crate::status::Status;
use crate::visible::visible_bytes;
use std::ffi::OsStr;
use std::io;
use std::os::unix::ffi::OsStrExt;

/// Writes the bytes of the root's sheet.
pub fn show_bytes(source: &Source, output: &mut Output) -> io::Result<Status> {
    let sheets = Sheets::read(source);
    told(
        sheets.map(|sheets| hexadecimal(sheets.root().shape.sheet().as_bytes())),
        output,
    )
}

/// Writes the text of the sheet of a kind that has these bytes.
pub fn show_text(hex: &OsStr, kind: &OsStr, output: &mut Output) -> io::Result<Status> {
    let shape = bytes(hex.as_bytes()).and_then(|bytes| {
        let kind = visible_bytes(kind.as_bytes());
        Shape::of_bytes(&kind, &bytes)
    });
    told(shape.map(|shape| sheet::text(&shape)), output)
}

fn told(said: Result<String, String>, output: &mut Output) -> io::Result<Status> {
    match said {
        Ok(said) => output.write(&said).map(|()| Status::Whole),
        Err(problem) => {
            trouble(&problem);
            Ok(Status::Trouble)
        }
    }
}

fn hexadecimal(bytes: &[u8]) -> String {
    let digits: String = bytes.iter().map(|byte| format!("{byte:02x}")).collect();
    digits + "\n"
}

/// The bytes of hexadecimal digits, with or without white space between them.
fn bytes(hex: &[u8]) -> Result<Vec<u8>, String> {
    let digits = hex.iter().filter(|byte| !byte.is_ascii_whitespace());
    let digits: Option<Vec<u8>> = digits
        .map(|digit| char::from(*digit).to_digit(16).map(|value| value as u8))
        .collect();
    let digits = digits.ok_or("the bytes of a sheet are given in hexadecimal digits")?;
    if digits.len() % 2 == 1 {
        return Err("a hexadecimal digit is missing: two make a byte".to_string());
    }
    Ok(digits.chunks(2).map(|two| two[0] * 16 + two[1]).collect())
}
