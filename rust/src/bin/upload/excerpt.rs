//! The line of a place, with a caret under the place.

use crate::files::MARK;
use crate::visible::{below, visible};
use falzheod::Place;
use std::ops::Range;

/// The most characters of a line that are shown.
const MOST: usize = 76;

/// Two lines: the number and the text of the line, and the caret.
pub fn excerpt(body: &[u8], place: Place) -> String {
    let line = line_at(body, place.byte);
    let text: Vec<char> = characters(&body[line.clone()]);
    let at = place.column - 1;
    let shown = window(text.len(), at);
    let (cut_left, cut_right) = (shown.start > 0, shown.end < text.len());
    let dots = |cut: bool| if cut { ".." } else { "" };
    let before = &text[shown.start..at.clamp(shown.start, shown.end)];
    let number = place.line.to_string();
    format!(
        "  {number} | {}{}{}\n  {} | {}{}^\n",
        dots(cut_left),
        text[shown.clone()].iter().collect::<String>(),
        dots(cut_right),
        " ".repeat(number.len()),
        " ".repeat(dots(cut_left).len()),
        // a place behind the line's end stands right behind its text
        below(before),
    )
}

/// The bytes of the line that a byte stands in, without its end: LF, CR LF or a lone CR.
fn line_at(body: &[u8], byte: usize) -> Range<usize> {
    let is_end = |at: usize| match body[at] {
        b'\n' => true,
        b'\r' => body.get(at + 1) != Some(&b'\n'),
        _ => false,
    };
    let byte = byte.min(body.len());
    let front = if body.starts_with(MARK) {
        MARK.len()
    } else {
        0
    };
    let start = (0..byte).rev().find(|at| is_end(*at));
    let start = start.map_or(front, |at| at + 1);
    let rest = &body[start..];
    let length = rest.iter().position(|byte| matches!(byte, b'\r' | b'\n'));
    start..start + length.unwrap_or(rest.len())
}

fn characters(text: &[u8]) -> Vec<char> {
    let text = String::from_utf8_lossy(text);
    text.chars().map(visible).collect()
}

/// The characters of a line that are shown: all, or some around the place.
fn window(length: usize, at: usize) -> Range<usize> {
    if length <= MOST {
        return 0..length;
    }
    let half = MOST / 2;
    let start = at.saturating_sub(half).min(length - MOST);
    start..start + MOST
}
