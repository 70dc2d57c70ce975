//! Characters of an upload as they can be shown: none moves the cursor, ends the line or
//! turns the direction of writing.

/// The character itself, or one that stands for it, so that columns stay. Tabs are kept.
pub fn visible(c: char) -> char {
    match c {
        '\t' => c,
        '\0'..='\x1F' => char::from_u32(0x2400 + c as u32).unwrap_or('\u{FFFD}'),
        '\x7F' => '\u{2421}',
        c if c.is_control() || turns(c) => '\u{FFFD}',
        c => c,
    }
}

/// Marks that turn the direction of writing, and two that end a line.
fn turns(c: char) -> bool {
    matches!(
        c,
        '\u{61C}' | '\u{200E}' | '\u{200F}' | '\u{2028}'..='\u{202E}'
    ) || matches!(c, '\u{2066}'..='\u{2069}')
}

/// A text in one line; what is not UTF-8 is U+FFFD.
pub fn visible_bytes(text: &[u8]) -> String {
    String::from_utf8_lossy(text).chars().map(visible).collect()
}

/// How many cells of a terminal the character takes: a tab none that is known.
pub fn cells(c: char) -> usize {
    match c {
        '\u{AD}' | '\u{300}'..='\u{36F}' | '\u{483}'..='\u{489}' | '\u{591}'..='\u{5BD}' => 0,
        '\u{64B}'..='\u{65F}' | '\u{1AB0}'..='\u{1AFF}' | '\u{1DC0}'..='\u{1DFF}' => 0,
        '\u{200B}'..='\u{200D}' | '\u{20D0}'..='\u{20F0}' => 0,
        '\u{FE00}'..='\u{FE0F}' | '\u{FE20}'..='\u{FE2F}' | '\u{FEFF}' => 0,
        '\u{1100}'..='\u{115F}' | '\u{2E80}'..='\u{303E}' | '\u{3041}'..='\u{A4CF}' => 2,
        '\u{AC00}'..='\u{D7A3}' | '\u{F900}'..='\u{FAFF}' | '\u{FE30}'..='\u{FE6F}' => 2,
        '\u{FF00}'..='\u{FF60}' | '\u{FFE0}'..='\u{FFE6}' => 2,
        '\u{1F300}'..='\u{1F64F}' | '\u{1F680}'..='\u{1F6FF}' | '\u{1F900}'..='\u{1F9FF}' => 2,
        '\u{20000}'..='\u{3FFFD}' => 2,
        _ => 1,
    }
}

/// How many cells a line takes that has no tabs.
pub fn width(line: &str) -> usize {
    line.chars().map(cells).sum()
}

/// What stands in a line of its own below the text, so that what follows is under the
/// place behind it: tabs under tabs, spaces under all else.
pub fn below(text: &[char]) -> String {
    let under = |c: &char| match c {
        '\t' => "\t".to_string(),
        c => " ".repeat(cells(*c)),
    };
    text.iter().map(under).collect()
}

/// The front of a text, with `..` where it was cut.
pub fn shortened(text: &str, most: usize) -> String {
    if text.chars().count() <= most {
        return text.to_string();
    }
    let front: String = text.chars().take(most - 2).collect();
    front + ".."
}
