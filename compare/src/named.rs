//! Tables by name: for each rule of document 01 ones that break it and no other,
//! and ones that stand at a limit without breaking it.

use crate::bodies::nested;
use crate::lent::Made;
use crate::rules::Rule;

/// A name, the rule that the table breaks alone (none at a limit), and the table.
pub type Named = (String, Option<Rule>, Made);

/// Rows 0 start r, 1 `>`, 2 start p:a, 3 attribute x, 4 `>`, 5 text, 6 end p:a, 7 end r.
const WHOLE: &[u8] = b"<r><p:a x=\"1\">t</p:a></r>";

/// The fields of a row.
const KIND: usize = 0;
const PREFIX: usize = 1;
const LOCAL: usize = 3;
const VALUE: usize = 5;
const POSITION: usize = 7;

/// A table written by hand; its final position is the body's length.
fn table(body: &[u8], rows: &[[u32; 8]]) -> Made {
    Made {
        body: body.to_vec(),
        numbers: rows.concat(),
        end: body.len() as u32,
    }
}

fn plain(kind: u32, position: u32) -> [u32; 8] {
    [kind, 0, 0, 0, 0, 0, 0, position]
}

/// A start or an end tag without prefix and with a name of one byte.
fn tag(kind: u32, local: u32, position: u32) -> [u32; 8] {
    [kind, 0, 0, local, 1, 0, 0, position]
}

/// `WHOLE` with a span (from `field` on) of one of its rows changed.
fn with_span(row: usize, field: usize, span: [u32; 2]) -> Made {
    let mut made = Made::of(WHOLE);
    made.numbers[8 * row + field..][..2].copy_from_slice(&span);
    made
}

fn with_number(row: usize, field: usize, number: u32) -> Made {
    let mut made = Made::of(WHOLE);
    made.numbers[8 * row + field] = number;
    made
}

/// All of them.
pub fn named() -> Vec<Named> {
    let mut list = Vec::new();
    let mut add = |name: &str, rule: Option<Rule>, made: Made| {
        list.push((name.to_string(), rule, made));
    };
    limits(&mut add);
    fields(&mut add);
    positions(&mut add);
    spans(&mut add);
    bytes(&mut add);
    order(&mut add);
    list
}

type Add<'a> = &'a mut dyn FnMut(&str, Option<Rule>, Made);

fn limits(add: Add<'_>) {
    for count in 1..8 {
        let mut made = Made::of(WHOLE);
        made.numbers.extend([0].repeat(count));
        add(
            &format!("{count} numbers too many"),
            Some(Rule::Length),
            made,
        );
    }
    add("8192 rows", None, table(b"", &[plain(7, 0); 8_192]));
    let rows = [plain(7, 0); 8_193];
    add("8193 rows", Some(Rule::Rows), table(b"", &rows));
    let spaces = [b' '; 65_537];
    add("65536 bytes", None, table(&spaces[1..], &[]));
    let rows = [plain(7, 65_536)];
    add("65536 bytes and a row", None, table(&spaces[1..], &rows));
    add("65537 bytes", Some(Rule::Bytes), table(&spaces, &[]));
    add(
        "65537 bytes and a row",
        Some(Rule::Bytes),
        table(&spaces, &rows),
    );
    let deep = |levels, inside| Made::of(&nested("a", levels, inside, levels));
    add("256 open elements", None, deep(256, ""));
    add("257 open elements", Some(Rule::Open), deep(257, ""));
    add("256 open elements with `/>`", None, deep(255, "<b/><b/>"));
    add(
        "257 open elements with `/>`",
        Some(Rule::Open),
        deep(256, "<b/>"),
    );
    let not_utf8 = |rows: &[[u32; 8]]| table(b"<a/>\xFF", rows);
    add("not UTF-8 without rows", None, not_utf8(&[]));
    add(
        "not UTF-8 with a row",
        Some(Rule::Utf8),
        not_utf8(&[plain(7, 0)]),
    );
}

fn fields(add: Add<'_>) {
    for kind in [0, 9, 10, 256, 257, 65_537, u32::MAX] {
        let made = table(b"", &[plain(kind, 0)]);
        add(&format!("kind {kind}"), Some(Rule::Kind), made);
    }
    for kind in [7, 8] {
        for field in PREFIX..POSITION {
            let mut made = table(b" ", &[plain(kind, 1)]);
            made.numbers[field] = 1;
            let name = format!("kind {kind} with field {field}");
            add(&name, Some(Rule::Unused), made);
        }
    }
    // the rows of `WHOLE` whose spans are not all used, and those spans
    let unused = [
        (2, "a start", VALUE..=VALUE + 1),
        (4, "a `>`", PREFIX..=VALUE + 1),
        (5, "a text", PREFIX..=LOCAL + 1),
        (6, "an end tag", VALUE..=VALUE + 1),
    ];
    for (row, name, fields) in unused {
        for field in fields {
            let name = format!("{name} with field {field}");
            add(&name, Some(Rule::Unused), with_number(row, field, 1));
        }
    }
    let empty = [
        (0, PREFIX, "a start's empty prefix"),
        (3, PREFIX, "an attribute's empty prefix"),
        (7, PREFIX, "an end tag's empty prefix"),
        (3, VALUE, "an attribute's empty value"),
        (5, VALUE, "an empty text"),
    ];
    for (row, field, name) in empty {
        add(&format!("{name} at 0"), None, with_span(row, field, [0, 0]));
        let inside = with_span(row, field, [1, 0]);
        add(&format!("{name} at 1"), Some(Rule::EmptyAtZero), inside);
    }
}

fn positions(add: Add<'_>) {
    let two = |first, second| table(b"  ", &[plain(7, first), plain(7, second)]);
    add("a position again", None, two(2, 2));
    add("a position that falls", Some(Rule::Fall), two(2, 1));
    for (end, rule) in [(2, None), (1, Some(Rule::End)), (0, Some(Rule::End))] {
        let mut made = two(1, 2);
        made.end = end;
        add(&format!("position 2, final {end}"), rule, made);
    }
    for (end, rule) in [
        (2, None),
        (3, Some(Rule::Final)),
        (u32::MAX, Some(Rule::Final)),
    ] {
        for mut made in [two(1, 2), table(b"  ", &[])] {
            made.end = end;
            let name = format!("final {end} of 2 bytes, {} rows", made.rows());
            add(&name, rule, made);
        }
    }
}

fn spans(add: Add<'_>) {
    // row 3 lies from 7 to 13, row 5 from 14 to 15, row 2 up to 7
    let early = Some(Rule::SpanStart);
    add(
        "an attribute's prefix at the start",
        None,
        with_span(3, PREFIX, [7, 1]),
    );
    add(
        "an attribute's prefix too early",
        early,
        with_span(3, PREFIX, [6, 1]),
    );
    add(
        "a local name at the start",
        None,
        with_span(3, LOCAL, [7, 1]),
    );
    add("a local name too early", early, with_span(3, LOCAL, [6, 1]));
    add("a value at the start", None, with_span(3, VALUE, [7, 1]));
    add("a value too early", early, with_span(3, VALUE, [6, 1]));
    add("a text too early", early, with_span(5, VALUE, [13, 1]));
    let late = Some(Rule::SpanEnd);
    for (row, field, start, end) in [
        (2, PREFIX, 4, 7),
        (2, LOCAL, 6, 7),
        (3, PREFIX, 8, 13),
        (3, LOCAL, 8, 13),
        (3, VALUE, 11, 13),
        (5, VALUE, 14, 15),
        (6, LOCAL, 19, 21),
    ] {
        let name = format!("row {row}, field {field}");
        let span = |length| with_span(row, field, [start, length]);
        add(&format!("{name}: to the end"), None, span(end - start));
        add(&format!("{name}: one past"), late, span(end - start + 1));
        // a sum that wraps in 32 bits, to 0 and past it
        add(
            &format!("{name}: wraps to 0"),
            late,
            span(0_u32.wrapping_sub(start)),
        );
        add(&format!("{name}: longest"), late, span(u32::MAX));
    }
    add(
        "a value that starts last",
        late,
        with_span(3, VALUE, [u32::MAX, 1]),
    );
    let empty = Some(Rule::EmptyLocal);
    // in rows 2 and 7 the `<` stands right before `first`
    for (row, first, last) in [(3, 7, 13), (2, 4, 7), (7, 22, 25)] {
        let local = |start| with_span(row, LOCAL, [start, 0]);
        add(&format!("row {row}: empty name first"), None, local(first));
        add(&format!("row {row}: empty name last"), None, local(last));
        add(
            &format!("row {row}: empty name one past"),
            empty,
            local(last + 1),
        );
    }
    add(
        "row 3: empty name too early",
        empty,
        with_span(3, LOCAL, [6, 0]),
    );
    add("row 3: empty name at 0", empty, with_span(3, LOCAL, [0, 0]));
    add(
        "row 3: empty name far off",
        empty,
        with_span(3, LOCAL, [u32::MAX, 0]),
    );
}

fn bytes(add: Add<'_>) {
    let angle = Some(Rule::Angle);
    let text = |position| [6, 0, 0, 0, 0, 3, 1, position];
    let behind_text = |position| {
        let rows = [
            tag(1, 1, 2),
            plain(3, 3),
            text(position),
            tag(1, 5, 6),
            plain(5, 8),
        ];
        table(b"<r>t<b/></r>", &rows)
    };
    add("a `<` at the previous position", None, behind_text(4));
    add("a `<` before the previous position", angle, behind_text(5));
    let rows = [tag(1, 0, 1), plain(5, 3)];
    add("no `<` at all", angle, table(b"a/>", &rows));
    let rows = [tag(1, 1, 2), plain(3, 3), tag(4, 3, 5)];
    add("an end tag without `<`", angle, table(b"<a>a>", &rows));
    let prefixed = |start| {
        let rows = [[1, start, 1, 3, 1, 0, 0, 4], plain(5, 6)];
        table(b"<p<a/>", &rows)
    };
    let prefix = Some(Rule::AnglePrefix);
    add("a prefix behind the `<`", None, prefixed(3));
    add("a prefix at the `<`", prefix, prefixed(2));
    add("a prefix before the `<`", prefix, prefixed(1));
    let greater = Some(Rule::EndsGreater);
    let ends = |body, kind, position| table(body, &[tag(1, 1, 2), plain(kind, position)]);
    add("a `>` one early", greater, ends(b"<a >", 3, 3));
    add("a `>` one late", greater, ends(b"<a> ", 3, 4));
    add(
        "an end tag one early",
        greater,
        with_number(7, POSITION, 24),
    );
    let slash = Some(Rule::EndsSlash);
    add("`/>` at its end", None, ends(b"<a/>", 5, 4));
    add("`/>` one early", slash, ends(b"<a/>", 5, 3));
    add("`/>` one late", slash, ends(b"<a/> ", 5, 5));
    add("`/>` without `/`", slash, ends(b"<a >", 5, 4));
    add("`/>` parted", slash, ends(b"<a/ >", 5, 5));
}

fn order(add: Add<'_>) {
    let in_tag = |row| table(b"<a<b></a>", &[tag(1, 1, 2), row]);
    let after = Some(Rule::AfterStart);
    add("the end inside a tag", None, table(b"<a", &[tag(1, 1, 2)]));
    add("an error inside a tag", None, in_tag(plain(8, 2)));
    add("a start inside a tag", after, in_tag(tag(1, 3, 4)));
    add("an end tag inside a tag", after, in_tag(tag(4, 7, 9)));
    add("a text inside a tag", after, in_tag(plain(6, 2)));
    add("a comment inside a tag", after, in_tag(plain(7, 2)));
    let mut made = Made::of(WHOLE);
    made.numbers[8 * 4..8 * 5].copy_from_slice(&plain(7, 14));
    made.numbers.truncate(8 * 5);
    add("a comment behind an attribute", after, made);
    let inside = |row| table(b"<a>/></a>", &[tag(1, 1, 2), plain(3, 3), row]);
    let outside = Some(Rule::InTag);
    add(
        "an attribute in content",
        outside,
        inside([2, 0, 0, 3, 1, 0, 0, 4]),
    );
    add("a `>` in content", outside, inside(plain(3, 5)));
    add("a `/>` in content", outside, inside(plain(5, 5)));
    add("a `>` at first", outside, table(b">", &[plain(3, 1)]));
    add("a `/>` at first", outside, table(b"/>", &[plain(5, 2)]));
    let attribute = [2, 0, 0, 0, 1, 0, 0, 1];
    add("an attribute at first", outside, table(b"a", &[attribute]));
    let needs = Some(Rule::NeedsOpen);
    add(
        "a text at first",
        needs,
        table(b"t", &[[6, 0, 0, 0, 0, 0, 1, 1]]),
    );
    add("an empty text at first", needs, table(b"", &[plain(6, 0)]));
    add(
        "an end tag at first",
        needs,
        table(b"</a>", &[tag(4, 2, 4)]),
    );
    let behind = |row| table(b"<a/><b/>", &[tag(1, 1, 2), plain(5, 4), row]);
    add("a comment behind the root", None, behind(plain(7, 8)));
    add("an error behind the root", None, behind(plain(8, 8)));
    add(
        "a second root",
        Some(Rule::BehindRoot),
        behind(tag(1, 5, 6)),
    );
    let closed = [tag(1, 1, 2), plain(3, 3), tag(4, 5, 7), tag(1, 8, 9)];
    add(
        "a second root behind an end tag",
        Some(Rule::BehindRoot),
        table(b"<a></a><b/>", &closed),
    );
    let last = Some(Rule::ErrorLast);
    add(
        "an error at last",
        None,
        table(b"", &[plain(7, 0), plain(8, 0)]),
    );
    add(
        "a comment behind an error",
        last,
        table(b"", &[plain(8, 0), plain(7, 0)]),
    );
    add("two errors", last, table(b"", &[plain(8, 0); 2]));
    add(
        "a kind changed to 8",
        last,
        with_number(5, KIND, 8).without_spans(5),
    );
}

impl Made {
    /// With no span in a row, as a kind wants it that uses none.
    fn without_spans(mut self, row: usize) -> Self {
        self.numbers[8 * row + PREFIX..8 * row + POSITION].fill(0);
        self
    }
}
