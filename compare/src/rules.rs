//! Document 01 on token tables and on the drain, written from 01's text alone:
//! neither from the Rust nor from Falzheod. It says which rules a table breaks, each
//! by its name, and walks a table that breaks none. The place of a bad reference, which
//! the Rust does not tell, is change request 1's.

use crate::model;
use std::collections::{BTreeSet, HashSet};

const MOST_ROWS: usize = 8_192;
const MOST_BYTES: usize = 65_536;
const MOST_OPEN: usize = 256;

/// A table as it is lent: the body, eight numbers a row, the final position.
#[derive(Clone, Copy)]
pub struct Lent<'t> {
    pub body: &'t [u8],
    pub numbers: &'t [u32],
    pub end: u32,
}

/// What the drain answers: its number, and for 9 the row and the cause.
#[derive(Clone, Copy, Debug, PartialEq, Eq)]
pub struct Answer {
    pub number: u32,
    pub row: usize,
    pub cause: u32,
}

impl Answer {
    pub const PASSES: Answer = Answer::plain(0);
    pub const TABLE: Answer = Answer::plain(1);

    const fn plain(number: u32) -> Self {
        Answer {
            number,
            row: 0,
            cause: 0,
        }
    }

    pub const fn ill_formed(row: usize, cause: u32) -> Self {
        Answer {
            number: 9,
            row,
            cause,
        }
    }

    pub fn is_reference(self) -> bool {
        self.cause == REFERENCE
    }
}

/// The cause "reference".
const REFERENCE: u32 = 5;

/// The rules of 01's section on the token table, in its order.
#[derive(Clone, Copy, Debug, PartialEq, Eq, PartialOrd, Ord)]
pub enum Rule {
    /// Kinds are 1 to 8.
    Kind,
    /// Unused fields are 0.
    Unused,
    /// An empty prefix or value is 0 and 0.
    EmptyAtZero,
    /// The length divides by 8.
    Length,
    /// At most 8,192 rows.
    Rows,
    /// At most 65,536 body bytes.
    Bytes,
    /// At most 256 open elements.
    Open,
    /// A body that is not UTF-8 has no rows.
    Utf8,
    /// Positions never fall.
    Fall,
    /// They end at or before the final position.
    End,
    /// The final position is at most the body length.
    Final,
    /// A filled span begins no earlier than the previous position.
    SpanStart,
    /// It ends no later than its own position.
    SpanEnd,
    /// The start of an empty local name obeys both.
    EmptyLocal,
    /// The last `<` before the local name stands no earlier than the previous
    /// position.
    Angle,
    /// It stands before a filled prefix.
    AnglePrefix,
    /// Kinds 3 and 4 end in `>`.
    EndsGreater,
    /// Kind 5 ends in `/>`.
    EndsSlash,
    /// After a start only 2, then 3 or 5, or 8, or the end.
    AfterStart,
    /// Kinds 2, 3, 5 come nowhere else.
    InTag,
    /// Kinds 4 and 6 need an open element.
    NeedsOpen,
    /// Once the root has closed, only 7 and 8.
    BehindRoot,
    /// Kind 8 is last.
    ErrorLast,
}

/// All of them, for a list that has to have each.
pub const RULES: [Rule; 23] = [
    Rule::Kind,
    Rule::Unused,
    Rule::EmptyAtZero,
    Rule::Length,
    Rule::Rows,
    Rule::Bytes,
    Rule::Open,
    Rule::Utf8,
    Rule::Fall,
    Rule::End,
    Rule::Final,
    Rule::SpanStart,
    Rule::SpanEnd,
    Rule::EmptyLocal,
    Rule::Angle,
    Rule::AnglePrefix,
    Rule::EndsGreater,
    Rule::EndsSlash,
    Rule::AfterStart,
    Rule::InTag,
    Rule::NeedsOpen,
    Rule::BehindRoot,
    Rule::ErrorLast,
];

pub type Broken = BTreeSet<Rule>;

/// Start and length.
type Span = (u32, u32);

/// A row by its fields.
struct Row {
    kind: u32,
    prefix: Span,
    local: Span,
    value: Span,
    position: u32,
}

impl Row {
    fn of(numbers: &[u32]) -> Self {
        Row {
            kind: numbers[0],
            prefix: (numbers[1], numbers[2]),
            local: (numbers[3], numbers[4]),
            value: (numbers[5], numbers[6]),
            position: numbers[7],
        }
    }

    fn has_name(&self) -> bool {
        matches!(self.kind, 1 | 2 | 4)
    }

    fn has_value(&self) -> bool {
        matches!(self.kind, 2 | 6)
    }
}

/// What the drain has to answer.
pub fn answer(lent: Lent<'_>) -> Answer {
    if broken(lent).is_empty() {
        walk(lent)
    } else {
        Answer::TABLE
    }
}

/// Where the failing `&` stands in the body: that of validation, behind the start of the
/// failing row's value. 0 where no reference is the cause.
pub fn place(lent: Lent<'_>, answer: Answer) -> usize {
    if !answer.is_reference() {
        return 0;
    }
    let (start, length) = Row::of(&lent.numbers[8 * answer.row..][..8]).value;
    let value = &lent.body[start as usize..][..length as usize];
    let at = model::places(value).validate;
    start as usize + at.expect("a reference that fails")
}

/// The rules that a table breaks, all of them.
pub fn broken(lent: Lent<'_>) -> Broken {
    let rows: Vec<Row> = lent.numbers.chunks_exact(8).map(Row::of).collect();
    let mut broken = Broken::new();
    limits(lent, &rows, &mut broken);
    order(&rows, &mut broken);
    let mut previous = 0;
    for row in &rows {
        fields(row, &mut broken);
        places(row, previous, &mut broken);
        bytes(lent.body, row, previous, &mut broken);
        previous = row.position;
    }
    broken
}

fn note(broken: &mut Broken, rule: Rule, holds: bool) {
    if !holds {
        broken.insert(rule);
    }
}

fn limits(lent: Lent<'_>, rows: &[Row], broken: &mut Broken) {
    let rest = lent.numbers.chunks_exact(8).remainder();
    note(broken, Rule::Length, rest.is_empty());
    note(broken, Rule::Rows, rows.len() <= MOST_ROWS);
    note(broken, Rule::Bytes, lent.body.len() <= MOST_BYTES);
    let utf8 = std::str::from_utf8(lent.body).is_ok();
    note(broken, Rule::Utf8, utf8 || lent.numbers.is_empty());
    let last = rows.last().map_or(0, |row| row.position);
    note(broken, Rule::End, last <= lent.end);
    note(broken, Rule::Final, lent.end as usize <= lent.body.len());
}

/// What 01 says of the kinds alone, one after the other.
fn order(rows: &[Row], broken: &mut Broken) {
    let (mut open, mut in_tag, mut root_closed) = (0, false, false);
    for (index, row) in rows.iter().enumerate() {
        let of_tag = matches!(row.kind, 2 | 3 | 5);
        note(broken, Rule::AfterStart, !in_tag || of_tag || row.kind == 8);
        note(broken, Rule::InTag, in_tag || !of_tag);
        let needs_open = matches!(row.kind, 4 | 6);
        note(broken, Rule::NeedsOpen, open > 0 || !needs_open);
        let may_follow = matches!(row.kind, 7 | 8);
        note(broken, Rule::BehindRoot, !root_closed || may_follow);
        let last = index + 1 == rows.len();
        note(broken, Rule::ErrorLast, row.kind != 8 || last);
        match row.kind {
            1 => (open, in_tag) = (open + 1, true),
            3 => in_tag = false,
            4 | 5 if open > 0 => {
                (open, in_tag) = (open - 1, false);
                root_closed |= open == 0;
            }
            _ => {}
        }
        note(broken, Rule::Open, open <= MOST_OPEN);
    }
}

fn fields(row: &Row, broken: &mut Broken) {
    let none = (0, 0);
    note(broken, Rule::Kind, (1..=8).contains(&row.kind));
    let no_name = row.prefix == none && row.local == none;
    note(broken, Rule::Unused, row.has_name() || no_name);
    note(broken, Rule::Unused, row.has_value() || row.value == none);
    for (used, (start, length)) in [(row.has_name(), row.prefix), (row.has_value(), row.value)] {
        let at_zero = length > 0 || start == 0;
        note(broken, Rule::EmptyAtZero, !used || at_zero);
    }
}

/// Positions and spans.
fn places(row: &Row, previous: u32, broken: &mut Broken) {
    note(broken, Rule::Fall, previous <= row.position);
    let end = |(start, length): Span| u64::from(start) + u64::from(length);
    let mut spans = Vec::new();
    if row.has_name() {
        spans.extend([row.prefix, row.local]);
    }
    if row.has_value() {
        spans.push(row.value);
    }
    for span in spans.into_iter().filter(|span| span.1 > 0) {
        note(broken, Rule::SpanStart, previous <= span.0);
        note(broken, Rule::SpanEnd, end(span) <= u64::from(row.position));
    }
    if row.has_name() && row.local.1 == 0 {
        let start = row.local.0;
        let holds = previous <= start && start <= row.position;
        note(broken, Rule::EmptyLocal, holds);
    }
}

/// What 01 says of the body's bytes about a row.
fn bytes(body: &[u8], row: &Row, previous: u32, broken: &mut Broken) {
    let before = &body[..body.len().min(row.position as usize)];
    let reached = before.len() == row.position as usize;
    match row.kind {
        3 | 4 => note(broken, Rule::EndsGreater, reached && before.ends_with(b">")),
        5 => note(broken, Rule::EndsSlash, reached && before.ends_with(b"/>")),
        _ => {}
    }
    if matches!(row.kind, 1 | 4) {
        let before_local = &body[..body.len().min(row.local.0 as usize)];
        let angle = before_local.iter().rposition(|byte| *byte == b'<');
        let late = angle.is_some_and(|angle| angle >= previous as usize);
        note(broken, Rule::Angle, late);
        let filled = row.prefix.1 > 0;
        let first = angle.is_none_or(|angle| angle < row.prefix.0 as usize);
        note(broken, Rule::AnglePrefix, !filled || first);
    }
}

/// The drain over a table that breaks no rule.
fn walk(lent: Lent<'_>) -> Answer {
    let text = |(start, length): Span| &lent.body[start as usize..][..length as usize];
    let mut open = Vec::new();
    let mut attributes = HashSet::new();
    let rows = lent.numbers.chunks_exact(8).map(Row::of);
    let count = rows.len();
    for (index, row) in rows.enumerate() {
        let name = (text(row.prefix), text(row.local));
        let cause = match row.kind {
            8 => Some(1),
            4 => (open.pop() != Some(name)).then_some(2),
            2 if !attributes.insert(name) => Some(4),
            2 | 6 => (!model::validate(text(row.value))).then_some(REFERENCE),
            _ => None,
        };
        if let Some(cause) = cause {
            return Answer::ill_formed(index, cause);
        }
        if row.kind == 1 {
            open.push(name);
            attributes.clear();
        } else if row.kind == 5 {
            open.pop();
        }
    }
    if open.is_empty() {
        Answer::PASSES
    } else {
        Answer::ill_formed(count, 3)
    }
}
