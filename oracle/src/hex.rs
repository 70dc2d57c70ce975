//! Bytes as the questions and answers write them.

use std::fmt::Write as _;

/// Bytes in hexadecimal, `-` for none.
pub fn hex(bytes: &[u8]) -> String {
    if bytes.is_empty() {
        return "-".to_string();
    }
    let mut text = String::with_capacity(bytes.len() * 2);
    for byte in bytes {
        write!(text, "{byte:02x}").expect("a string");
    }
    text
}

pub fn bytes(hex: &str) -> Result<Vec<u8>, String> {
    if hex == "-" {
        return Ok(Vec::new());
    }
    if hex.len() % 2 != 0 || !hex.bytes().all(|b| b.is_ascii_hexdigit()) {
        return Err("hex".to_string());
    }
    let digit = |b: u8| (b as char).to_digit(16).expect("a digit") as u8;
    Ok(hex
        .as_bytes()
        .chunks(2)
        .map(|pair| digit(pair[0]) * 16 + digit(pair[1]))
        .collect())
}

pub fn utf8(hex: &str) -> Result<String, String> {
    String::from_utf8(bytes(hex)?).map_err(|_| "utf8".to_string())
}
