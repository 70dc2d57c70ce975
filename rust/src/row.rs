//! A row of a token table, and the rows of an element in a table.

use std::mem::size_of;

/// One row of a token table: a token's kind, its spans in the body and the
/// position right after it. `include/falzheod.h` has the kinds and the rules.
///
/// ```
/// use falzheod::Row;
///
/// // the start of `<core`, at the front of a body
/// let start = Row { kind: 1, local_start: 1, local_len: 4, position: 5, ..Row::default() };
/// assert_eq!(start.numbers(), [1, 0, 0, 1, 4, 0, 0, 5]);
/// ```
#[derive(Clone, Copy, Debug, Default, PartialEq, Eq, Hash)]
#[repr(C)]
pub struct Row {
    /// 1 start, 2 attribute, 3 `>`, 4 end tag, 5 `/>`, 6 text, 7 all others,
    /// 8 token error.
    pub kind: u32,
    /// Where the prefix starts (kinds 1, 2, 4), 0 where it is empty.
    pub prefix_start: u32,
    /// How many bytes the prefix has.
    pub prefix_len: u32,
    /// Where the local name starts (kinds 1, 2, 4), even where it is empty.
    pub local_start: u32,
    /// How many bytes the local name has.
    pub local_len: u32,
    /// Where the value starts (kinds 2, 6), 0 where it is empty.
    pub value_start: u32,
    /// How many bytes the value has.
    pub value_len: u32,
    /// The position in the body right after the token.
    pub position: u32,
}

/// The kinds of rows that are asked for by name.
pub(crate) mod kind {
    pub const START: u32 = 1;
    pub const ATTRIBUTE: u32 = 2;
    pub const OPEN: u32 = 3;
    pub const CLOSE: u32 = 4;
    pub const SLASH: u32 = 5;
}

/// The numbers of a row in the library's tables.
pub(crate) const NUMBERS: usize = 8;

// the library reads a row as eight numbers in a line
const _: () = assert!(size_of::<Row>() == NUMBERS * size_of::<u32>());

impl Row {
    /// The eight numbers of the row, in the order of its fields.
    ///
    /// ```
    /// assert_eq!(falzheod::Row { kind: 3, position: 9, ..Default::default() }.numbers()[7], 9);
    /// ```
    pub fn numbers(&self) -> [u32; NUMBERS] {
        [
            self.kind,
            self.prefix_start,
            self.prefix_len,
            self.local_start,
            self.local_len,
            self.value_start,
            self.value_len,
            self.position,
        ]
    }

    /// The row of the same token where its bytes are copied from `from` to `to`: the
    /// position, the start of each filled span and that of each local name move (01,
    /// "Counted from a piece's first byte"); all else stays.
    pub(crate) fn moved(self, from: u32, to: u32) -> Row {
        let place = |start: u32| start.saturating_sub(from) + to;
        let span = |start: u32, len: u32| if len == 0 { start } else { place(start) };
        let has_name = matches!(self.kind, kind::START | kind::ATTRIBUTE | kind::CLOSE);
        Row {
            prefix_start: span(self.prefix_start, self.prefix_len),
            local_start: if has_name {
                place(self.local_start)
            } else {
                self.local_start
            },
            value_start: span(self.value_start, self.value_len),
            position: place(self.position),
            ..self
        }
    }

    /// The local name in the body.
    pub(crate) fn local<'a>(&self, body: &'a [u8]) -> &'a [u8] {
        part(body, self.local_start, self.local_len)
    }

    /// The prefix in the body.
    pub(crate) fn prefix<'a>(&self, body: &'a [u8]) -> &'a [u8] {
        part(body, self.prefix_start, self.prefix_len)
    }

    /// The name as it stands in the body, with its prefix.
    pub(crate) fn name(&self, body: &[u8]) -> String {
        let (prefix, local) = (self.prefix(body), self.local(body));
        let local = String::from_utf8_lossy(local);
        if prefix.is_empty() {
            local.into_owned()
        } else {
            format!("{}:{local}", String::from_utf8_lossy(prefix))
        }
    }

    /// The value in the body.
    pub(crate) fn value<'a>(&self, body: &'a [u8]) -> &'a [u8] {
        part(body, self.value_start, self.value_len)
    }

    /// Where the name of a row of kind 1, 2 or 4 begins, with its prefix.
    pub(crate) fn name_start(&self) -> usize {
        let has_prefix = self.prefix_len > 0;
        let start = if has_prefix {
            self.prefix_start
        } else {
            self.local_start
        };
        start as usize
    }

    /// Where the token begins, if the row tells.
    pub(crate) fn start(&self, body: &[u8]) -> Option<usize> {
        match self.kind {
            kind::START | kind::CLOSE => Some(self.tag_start(body)),
            kind::ATTRIBUTE => Some(self.name_start()),
            _ => None,
        }
    }

    /// Where the tag of a row of kind 1 or 4 begins: the last `<` before its name.
    pub(crate) fn tag_start(&self, body: &[u8]) -> usize {
        let before = &body[..body.len().min(self.local_start as usize)];
        before.iter().rposition(|byte| *byte == b'<').unwrap_or(0)
    }
}

/// A part of the body; nothing where it is not in it.
fn part(body: &[u8], start: u32, len: u32) -> &[u8] {
    let start = start as usize;
    body.get(start..start + len as usize).unwrap_or_default()
}

/// How many elements are open after a row, where `open` are before it.
pub(crate) fn open_after(open: usize, row: &Row) -> usize {
    match row.kind {
        kind::START => open + 1,
        kind::CLOSE | kind::SLASH => open.saturating_sub(1),
        _ => open,
    }
}

/// The rows of the element whose start row is the first of `rows`, up to the row that
/// closes it.
fn element(rows: &[Row]) -> &[Row] {
    let mut open = 0;
    for (index, row) in rows.iter().enumerate() {
        open = open_after(open, row);
        if open == 0 {
            return &rows[..=index];
        }
    }
    rows
}

/// The rows of the element whose `<` stands at `start`, of a table that passes the
/// drain. Positions never fall, and the `<` of a start row stands at or after the
/// position of the row before it: its row is the first whose position is past `start`.
pub(crate) fn element_at(rows: &[Row], start: u32) -> &[Row] {
    let first = rows.partition_point(|row| row.position <= start);
    element(&rows[first..])
}

/// The root's start row with its attributes, of a table that passes the drain.
pub(crate) fn root_tag(rows: &[Row]) -> &[Row] {
    let Some(start) = rows.iter().position(|row| row.kind == kind::START) else {
        return &[];
    };
    let rest = &rows[start..];
    let attributes = rest[1..]
        .iter()
        .take_while(|row| row.kind == kind::ATTRIBUTE);
    &rest[..=attributes.count()]
}

/// The rows of each element that stands directly in the root, in the body's order, of a
/// table that passes the drain.
pub(crate) fn children(rows: &[Row]) -> Vec<&[Row]> {
    let start = rows.iter().position(|row| row.kind == kind::START);
    let mut rest = start.map_or(&[][..], |start| &rows[start + 1..]);
    let mut children = Vec::new();
    while let Some(row) = rest.first() {
        match row.kind {
            kind::START => {
                let child = element(rest);
                children.push(child);
                rest = &rest[child.len()..];
            }
            kind::CLOSE | kind::SLASH => break,
            _ => rest = &rest[1..],
        }
    }
    children
}
