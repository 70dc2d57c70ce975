//! Findings as text: `FILE:LINE:COLUMN: message` and excerpts, or that it passes.

use crate::entries::Level;
use crate::excerpt::excerpt;
use crate::files::Source;
use crate::finding::Finding;
use crate::table;
use crate::visible::visible_bytes;

/// What is told of a file, and the entries that were read of it.
pub fn told(source: &Source, body: &[u8], finding: &Finding, level: Option<&Level>) -> String {
    let mut said = found(source, body, finding);
    if let Some(level) = level {
        if !level.is_whole() {
            said += &format!("{}: well-formed, but not read whole\n", source.shown());
        }
        said += &table::levels(body, level);
    }
    said
}

fn found(source: &Source, body: &[u8], finding: &Finding) -> String {
    let (file, message) = (source.shown(), visible_bytes(finding.message.as_bytes()));
    let Some(place) = finding.place else {
        return format!("{file}: {message}\n");
    };
    let mut said = format!("{file}:{}:{}: {message}\n", place.line, place.column);
    said += &excerpt(body, place);
    match finding.other {
        // in the same line the message tells its column
        Some((what, other)) if other.line != place.line => {
            said += &format!("{what}:\n{}", excerpt(body, other));
        }
        _ => {}
    }
    said
}
