//! The readings over rows once more, as document 01 and the Rust's decode.rs and
//! deserializer.rs have them: the model for what the Rust cannot be asked, which is
//! room, tables that no tokenizer made, and the whole text. The comparison holds it
//! to the Rust on every table of the tokenizer. The place beside 7, which the Rust does
//! not tell, is change request 1's: a lenient reading has that of unescaping in the text
//! at which it fails, a strict one that of the drain, which stops it there.

use crate::model;
use crate::rules::{self, Lent};
use crate::sheets::{List, Map, Structure};
pub use oracle::Kind;

/// What is asked of a reading beside the table.
#[derive(Clone, Copy, Debug)]
pub struct Asked<'a> {
    pub sheet: &'a [u8],
    pub flags: u32,
    pub max_depth: u32,
    pub depth: u32,
}

/// How many entries and text bytes may be written.
#[derive(Clone, Copy, Debug)]
pub struct Room {
    pub entries: usize,
    pub bytes: usize,
}

/// What a reading answers.
#[derive(Clone, Debug, Default, PartialEq, Eq)]
pub struct Told {
    pub number: u32,
    pub place: usize,
    pub entries: Vec<[u32; 6]>,
    pub texts: Vec<u8>,
}

/// Why there is no answer: the number, and beside 7 where the failing `&` stands in the
/// body.
#[derive(Clone, Copy, Debug, Default, PartialEq, Eq)]
pub struct Refused {
    pub number: u32,
    pub place: usize,
}

impl From<u32> for Refused {
    fn from(number: u32) -> Self {
        Refused { number, place: 0 }
    }
}

struct Output {
    room: Room,
    entries: Vec<[u32; 6]>,
    texts: Vec<u8>,
}

impl Output {
    fn at(&self) -> u32 {
        self.texts.len() as u32
    }

    fn write(&mut self, entry: [u32; 6], bytes: &[u8]) -> Result<(), Refused> {
        let full = self.entries.len() == self.room.entries;
        if full || self.texts.len() + bytes.len() > self.room.bytes {
            return Err(10.into());
        }
        self.entries.push(entry);
        self.texts.extend_from_slice(bytes);
        Ok(())
    }

    fn text(&mut self, member: u32, text: &[u8]) -> Result<(), Refused> {
        self.write([1, member, 0, 0, self.at(), text.len() as u32], text)
    }

    fn piece(&mut self, member: u32, (start, len): (u32, u32)) -> Result<(), Refused> {
        self.write([2, member, 0, 0, start, len], b"")
    }
}

/// `Document`: the rows one by one, with the depth, and when strict the open names
/// and the attribute names of the last start tag.
struct Document<'a> {
    lent: Lent<'a>,
    body: &'a [u8],
    rows: Vec<[u32; 8]>,
    end: u32,
    strict: bool,
    row: usize,
    depth: i64,
    offset: u32,
    open: Vec<usize>,
    attributes: Vec<usize>,
    malformed: bool,
}

/// What `Document` gives: a row and its depth, an error, or nothing.
enum Token {
    Row(usize, i64),
    Error(Refused),
    Nothing,
}

impl<'a> Document<'a> {
    fn new(lent: Lent<'a>, strict: bool) -> Self {
        Document {
            lent,
            body: lent.body,
            rows: lent
                .numbers
                .chunks(8)
                .map(|row| row.try_into().expect("eight"))
                .collect(),
            end: lent.end,
            strict,
            row: 0,
            depth: 0,
            offset: 0,
            open: Vec::new(),
            attributes: Vec::new(),
            malformed: false,
        }
    }

    fn span(&self, row: usize, place: usize) -> &'a [u8] {
        let (start, len) = (
            self.rows[row][place] as usize,
            self.rows[row][place + 1] as usize,
        );
        &self.body[start..start + len]
    }

    fn name(&self, row: usize) -> (&'a [u8], &'a [u8]) {
        (self.span(row, 1), self.span(row, 3))
    }

    fn local(&self, row: usize) -> &'a [u8] {
        self.span(row, 3)
    }

    fn value(&self, row: usize) -> &'a [u8] {
        self.span(row, 5)
    }

    /// A text row's value, unescaped.
    fn unescaped(&self, row: usize) -> Result<Vec<u8>, Refused> {
        let value = self.value(row);
        model::unescape(value).ok_or_else(|| {
            let at = model::places(value).unescape.expect("an `&` that fails");
            let place = self.rows[row][5] as usize + at;
            Refused { number: 7, place }
        })
    }

    fn fail(&mut self, refused: Refused) -> Token {
        self.malformed = self.strict;
        Token::Error(refused)
    }

    fn next(&mut self) -> Token {
        if self.malformed {
            return Token::Nothing;
        }
        let Some(row) = self.rows.get(self.row).copied() else {
            self.offset = self.end;
            return if self.strict && !self.open.is_empty() {
                self.fail(9.into())
            } else {
                Token::Nothing
            };
        };
        let at = self.row;
        self.row += 1;
        self.offset = row[7];
        if row[0] == 8 {
            return self.fail(8.into());
        }
        if self.strict {
            if let Some(refused) = self.strictly(at, row[0]) {
                return self.fail(refused);
            }
        }
        match row[0] {
            1 => self.depth += 1,
            4 | 5 => self.depth -= 1,
            _ => {}
        }
        Token::Row(at, self.depth - i64::from(row[0] == 1))
    }

    fn strictly(&mut self, at: usize, kind: u32) -> Option<Refused> {
        match kind {
            1 => {
                self.open.push(at);
                self.attributes.clear();
            }
            2 => {
                if self
                    .attributes
                    .iter()
                    .any(|other| self.name(*other) == self.name(at))
                {
                    return Some(9.into());
                }
                self.attributes.push(at);
            }
            4 => {
                let open = self.open.pop();
                if open.map(|open| self.name(open)) != Some(self.name(at)) {
                    return Some(9.into());
                }
            }
            5 => drop(self.open.pop()),
            _ => {}
        }
        let bad = matches!(kind, 2 | 6) && !model::validate(self.value(at));
        bad.then(|| {
            let place = rules::place(self.lent, rules::answer(self.lent));
            Refused { number: 7, place }
        })
    }

    /// `finish_well_formed`.
    fn finish(&mut self) -> Result<(), Refused> {
        while self.strict && !matches!(self.next(), Token::Nothing) {}
        if self.malformed {
            Err(9.into())
        } else {
            Ok(())
        }
    }
}

/// A start element: its row, its attributes with their values, whether `/>` ended it,
/// and its depth.
struct Start {
    row: usize,
    attributes: Vec<(usize, Vec<u8>)>,
    closed: bool,
    depth: i64,
}

/// `ScopedDecoder`.
struct Scope {
    start: Start,
    terminated: bool,
}

impl Scope {
    fn new(start: Start) -> Self {
        let terminated = start.closed;
        Scope { start, terminated }
    }

    fn next(&mut self, document: &mut Document<'_>) -> Token {
        if self.terminated {
            return Token::Nothing;
        }
        let token = document.next();
        if let Token::Row(row, depth) = token {
            let closes = document.rows[row][0] == 4 && depth == self.start.depth;
            if closes && document.name(row) == document.name(self.start.row) {
                self.terminated = true;
                return Token::Nothing;
            }
        }
        token
    }

    fn drop(&mut self, document: &mut Document<'_>) -> u32 {
        while !matches!(self.next(document), Token::Nothing) {}
        document.offset
    }

    fn child(&mut self, document: &mut Document<'_>) -> Option<Scope> {
        next_start(document, |document| self.next(document)).map(Scope::new)
    }

    fn piece(&mut self, document: &mut Document<'_>) -> (u32, u32) {
        let local = document.rows[self.start.row][3] as usize;
        let start = last_lt(document.body, local);
        (start, self.drop(document) - start)
    }

    fn text(&mut self, document: &mut Document<'_>) -> Result<Vec<u8>, Refused> {
        loop {
            match self.next(document) {
                Token::Nothing => return Ok(Vec::new()),
                Token::Error(refused) => return Err(refused),
                Token::Row(row, _) => match document.rows[row][0] {
                    1 => return Err(6.into()),
                    6 => return document.unescaped(row),
                    _ => {}
                },
            }
        }
    }
}

fn last_lt(body: &[u8], before: usize) -> u32 {
    body[..before]
        .iter()
        .rposition(|byte| *byte == b'<')
        .unwrap_or(0) as u32
}

/// `next_start_element`, of a document or of a scope.
fn next_start(
    document: &mut Document<'_>,
    mut next: impl FnMut(&mut Document<'_>) -> Token,
) -> Option<Start> {
    let mut start = Start {
        row: 0,
        attributes: Vec::new(),
        closed: false,
        depth: 0,
    };
    loop {
        match next(document) {
            Token::Nothing => return None,
            Token::Error(_) => {}
            Token::Row(row, depth) => match document.rows[row][0] {
                1 => (start.row, start.depth) = (row, depth),
                2 => start
                    .attributes
                    .push((row, model::unescape(document.value(row))?)),
                3 => return Some(start),
                5 => {
                    start.closed = true;
                    return Some(start);
                }
                _ => {}
            },
        }
    }
}

/// `Name::matches`.
fn matches(name: (&[u8], &[u8]), pattern: &[u8]) -> bool {
    match pattern.iter().position(|byte| *byte == b':') {
        None => name.1 == pattern,
        Some(colon) => name == (&pattern[..colon], &pattern[colon + 1..]),
    }
}

/// The sheet of a reading, where its bytes are one.
enum Sheet {
    Structure(Structure),
    List(List),
    Map(Map),
}

fn sheet_of(kind: Kind, bytes: &[u8]) -> Option<Sheet> {
    match kind {
        Kind::Struct => Structure::of(bytes).map(Sheet::Structure),
        Kind::List | Kind::Strings => List::of(bytes).map(Sheet::List),
        Kind::Map => Map::of(bytes).map(Sheet::Map),
    }
}

/// A reading of any table, in any room.
pub fn read(kind: Kind, lent: Lent<'_>, asked: Asked<'_>, room: Room) -> Told {
    let refused = |number| Told {
        number,
        ..Told::default()
    };
    if rules::answer(lent).number == 1 {
        return refused(1);
    }
    let Some(sheet) = sheet_of(kind, asked.sheet) else {
        return refused(2);
    };
    if asked.max_depth <= asked.depth {
        return refused(3);
    }
    let strict = asked.flags & 1 != 0 && asked.depth == 0;
    let mut document = Document::new(lent, strict);
    let Some(start) = next_start(&mut document, |document| document.next()) else {
        return refused(4);
    };
    let mut out = Output {
        room,
        entries: Vec::new(),
        texts: Vec::new(),
    };
    let mut root = Scope::new(start);
    let result = match &sheet {
        Sheet::Structure(sheet) => read_struct(&mut document, &mut root, sheet, asked, &mut out),
        Sheet::List(sheet) => read_list(kind, &mut document, &mut root, sheet, asked, &mut out),
        Sheet::Map(sheet) => read_map(&mut document, &mut root, sheet, asked, &mut out),
    };
    let Refused { number, place } = result.err().unwrap_or_default();
    Told {
        number,
        place,
        entries: out.entries,
        texts: out.texts,
    }
}

fn read_struct(
    document: &mut Document<'_>,
    root: &mut Scope,
    sheet: &Structure,
    asked: Asked<'_>,
    out: &mut Output,
) -> Result<(), Refused> {
    let name = document.name(root.start.row);
    if asked.flags & 2 != 0 && asked.depth == 0 && !matches(name, sheet.root_name()) {
        return Err(5.into());
    }
    if sheet.unwrapped {
        let piece = root_piece(document, root.start.row);
        document.finish()?;
        return match sheet.resolve(name.1) {
            Some(index) => out.piece(index as u32, piece),
            None => Ok(()),
        };
    }
    for (index, member) in sheet
        .members
        .iter()
        .enumerate()
        .filter(|(_, member)| member.attribute)
    {
        let wanted = member.name().unwrap_or(b"");
        let value = root
            .start
            .attributes
            .iter()
            .find(|(row, _)| matches(document.name(*row), wanted));
        if let Some((_, value)) = value {
            out.text(index as u32, value)?;
        }
    }
    let mut groups: Vec<Vec<u8>> = vec![Vec::new(); sheet.members.len()];
    while let Some(mut child) = root.child(document) {
        if let Some(index) = sheet.resolve(document.local(child.start.row)) {
            let member = &sheet.members[index];
            if !member.aggregate {
                match child.text(document) {
                    Ok(text) => out.text(index as u32, &text)?,
                    Err(Refused { number, place }) => {
                        out.write([4, index as u32, 0, 0, number, place as u32], b"")?
                    }
                }
            } else {
                let (start, len) = child.piece(document);
                if member.flattened {
                    groups[index]
                        .extend_from_slice(&document.body[start as usize..(start + len) as usize]);
                } else {
                    out.piece(index as u32, (start, len))?;
                }
            }
        }
        child.drop(document);
    }
    root.drop(document);
    document.finish()?;
    write_groups(groups, out)
}

/// "by rising member index", and "room is now tested group by group, so the groups before
/// the one that does not fit stay written"
fn write_groups(siblings: Vec<Vec<u8>>, out: &mut Output) -> Result<(), Refused> {
    for (index, siblings) in siblings.iter().enumerate() {
        if !siblings.is_empty() {
            let group = [b"<__flat>", siblings.as_slice(), b"</__flat>"].concat();
            let entry = [3, index as u32, 0, 0, out.at(), group.len() as u32];
            out.write(entry, &group)?;
        }
    }
    Ok(())
}

/// The root element by its rows: to the row that closes it, else to the end of what is seen.
fn root_piece(document: &Document<'_>, first: usize) -> (u32, u32) {
    let start = last_lt(document.body, document.rows[first][3] as usize);
    let mut open = 0;
    for row in &document.rows[first..] {
        match row[0] {
            1 => open += 1,
            4 | 5 => open -= 1,
            _ => {}
        }
        if open == 0 {
            return (start, row[7] - start);
        }
    }
    (start, document.end - start)
}

fn read_list(
    kind: Kind,
    document: &mut Document<'_>,
    root: &mut Scope,
    sheet: &List,
    asked: Asked<'_>,
    out: &mut Output,
) -> Result<(), Refused> {
    let name = if asked.flags & 4 != 0 {
        sheet.item_name()
    } else {
        None
    };
    while let Some(mut child) = root.child(document) {
        let wanted = name.is_none_or(|name| matches(document.name(child.start.row), name));
        if wanted && kind == Kind::List {
            out.piece(0, child.piece(document))?;
        } else if wanted {
            out.text(0, &child.text(document)?)?;
        }
        child.drop(document);
    }
    root.drop(document);
    document.finish()
}

fn read_map(
    document: &mut Document<'_>,
    root: &mut Scope,
    sheet: &Map,
    asked: Asked<'_>,
    out: &mut Output,
) -> Result<(), Refused> {
    while let Some(mut entry) = root.child(document) {
        let named = asked.flags & 4 != 0 && !sheet.flattened;
        if !named || matches(document.name(entry.start.row), b"entry") {
            read_entry(document, &mut entry, sheet, out)?;
        }
        entry.drop(document);
    }
    root.drop(document);
    document.finish()
}

fn read_entry(
    document: &mut Document<'_>,
    entry: &mut Scope,
    sheet: &Map,
    out: &mut Output,
) -> Result<(), Refused> {
    let (mut key, mut text, mut piece) = (None, None, None);
    while let Some(mut field) = entry.child(document) {
        let local = document.local(field.start.row);
        if local == sheet.key_name() {
            key = Some(field.text(document)?);
        } else if local == sheet.value_name() {
            if sheet.aggregate {
                piece = Some(field.piece(document));
            } else {
                text = Some(field.text(document)?);
            }
        }
        field.drop(document);
    }
    entry.drop(document);
    let Some(key) = key else {
        return Ok(());
    };
    let (at, len) = (out.at(), key.len() as u32);
    match (piece, text) {
        (Some((start, length)), _) => out.write([2, 0, at, len, start, length], &key),
        (None, Some(text)) => out.write(
            [1, 0, at, len, at + len, text.len() as u32],
            &[key, text].concat(),
        ),
        (None, None) => Ok(()),
    }
}

/// The text of a scalar reading, or its number, room apart.
pub fn scalar(lent: Lent<'_>, flags: u32, depth: u32) -> Result<Vec<u8>, Refused> {
    if rules::answer(lent).number == 1 {
        return Err(1.into());
    }
    let mut document = Document::new(lent, flags & 1 != 0 && depth == 0);
    let mut root = Scope::new(next_start(&mut document, |document| document.next()).ok_or(4u32)?);
    let text = root.text(&mut document)?;
    root.drop(&mut document);
    document.finish()?;
    Ok(text)
}

/// "Integers: optional sign, one or more digits, range of 32 bits, nothing trimmed."
pub fn integer(text: &[u8]) -> Result<i32, Refused> {
    let (negative, digits) = match text {
        [b'-', digits @ ..] => (true, digits),
        [b'+', digits @ ..] => (false, digits),
        digits => (false, digits),
    };
    if digits.is_empty() || !digits.iter().all(u8::is_ascii_digit) {
        return Err(12.into());
    }
    let value = digits.iter().fold(0i64, |value, digit| {
        (value * 10 + i64::from(digit - b'0')).min(1 << 40)
    });
    i32::try_from(if negative { -value } else { value }).map_err(|_| 12.into())
}

pub fn boolean(text: &[u8]) -> Result<bool, Refused> {
    match text {
        b"true" => Ok(true),
        b"false" => Ok(false),
        _ => Err(11.into()),
    }
}

/// Start and length of the part, or 1 or 13.
pub fn find(lent: Lent<'_>, name: &[u8]) -> Result<(usize, usize), Refused> {
    if rules::answer(lent).number == 1 {
        return Err(1.into());
    }
    let mut document = Document::new(lent, false);
    let mut root = Scope::new(next_start(&mut document, |document| document.next()).ok_or(13u32)?);
    if document.local(root.start.row) == name {
        return Ok((0, lent.body.len()));
    }
    while let Some(mut child) = root.child(&mut document) {
        if document.local(child.start.row) == name {
            let (start, len) = child.piece(&mut document);
            return Ok((start as usize, len as usize));
        }
        child.drop(&mut document);
    }
    Err(13.into())
}

/// 01, "Whole text", room apart.
pub fn whole_text(lent: Lent<'_>) -> Result<Vec<u8>, Refused> {
    match rules::answer(lent).number {
        0 => {}
        number => return Err(number.into()),
    }
    let document = Document::new(lent, false);
    let kinds = |kind| {
        document
            .rows
            .iter()
            .filter(move |row| row[0] == kind)
            .count()
    };
    match kinds(1) {
        0 => return Err(4.into()),
        1 => {}
        _ => return Err(6.into()),
    }
    let texts = (0..document.rows.len()).filter(|row| document.rows[*row][0] == 6);
    Ok(texts
        .flat_map(|row| model::unescape(document.value(row)).expect("validated"))
        .collect())
}
