//! What a reading gave, level by level, with the places of pieces counted in the file.

use crate::sheet::{Named, Shape, Sheets};
use crate::visible::visible_bytes;
use falzheod::{CheckError, Group, Piece, Refusal, Settings, Text, Upload};
use std::ops::Range;

/// What one reading by a sheet gave.
pub struct Level {
    /// The name of the sheet, and the word for its kind.
    pub sheet: String,
    pub kind: &'static str,
    /// Where its element stands in the file, unless it is the root or a group.
    pub piece: Option<Range<usize>>,
    pub refused: Option<Refused>,
    pub entries: Vec<Entry>,
}

/// Why a reading, or the reading of a text, was refused.
pub struct Refused {
    pub number: u32,
    pub message: String,
}

/// One entry of a reading.
pub struct Entry {
    pub member: usize,
    /// The name of the member, of a structure.
    pub name: Option<String>,
    /// The key, in a map.
    pub key: Option<String>,
    pub value: Value,
    pub read: Read,
}

/// What an entry holds; pieces by their places in the file.
pub enum Value {
    Text(String),
    Piece(Range<usize>),
    Group(Vec<Range<usize>>),
    Failed(Refused),
}

/// What was read of a piece or group: nothing, all of it by one sheet, or each piece of
/// the group.
pub enum Read {
    Not,
    Whole(Box<Level>),
    Each(Vec<Level>),
}

/// Where the bytes of a body stand in the file: each part from a byte of the body on.
struct Origin(Vec<(usize, usize)>);

/// How pieces are read.
#[derive(Clone, Copy)]
struct How<'s> {
    sheets: &'s Sheets,
    deep: bool,
}

impl Level {
    /// Reads an upload by the root's sheet, and its pieces where that is asked for.
    pub fn root(upload: &Upload<'_>, sheets: &Sheets, deep: bool) -> Level {
        let how = How { sheets, deep };
        let mut level = how.level(upload, sheets.root(), &Origin(vec![(0, 0)]));
        if let Some(refused) = &mut level.refused {
            refused.message += &root_names(upload, &sheets.root().shape, refused.number);
        }
        level
    }

    /// Whether nothing was refused, here and below.
    pub fn is_whole(&self) -> bool {
        self.refused.is_none() && self.entries.iter().all(Entry::is_whole)
    }
}

impl Entry {
    pub fn kind(&self) -> &'static str {
        match self.value {
            Value::Text(_) => "text",
            Value::Piece(_) => "piece",
            Value::Group(_) => "group",
            Value::Failed(_) => "failed",
        }
    }

    fn is_whole(&self) -> bool {
        let is_read = match &self.read {
            Read::Not => true,
            Read::Whole(level) => level.is_whole(),
            Read::Each(levels) => levels.iter().all(Level::is_whole),
        };
        is_read && !matches!(self.value, Value::Failed(_))
    }
}

impl From<Refusal> for Refused {
    fn from(refusal: Refusal) -> Self {
        Refused {
            number: refusal.number(),
            message: refusal.to_string(),
        }
    }
}

impl Origin {
    /// The place in the file of a piece of the body.
    fn of(&self, piece: Range<usize>) -> Range<usize> {
        let parts = self.0.iter().rev();
        let mut before = parts.skip_while(|(from, _)| *from > piece.start);
        let (from, to) = before.next().copied().unwrap_or_default();
        let start = piece.start - from + to;
        start..start + piece.len()
    }

    /// Of the body that a group's pieces make, each behind the other.
    fn of_group(pieces: &[Range<usize>]) -> Origin {
        let mut at = "<__flat>".len();
        let parts = pieces.iter().map(|piece| {
            let part = (at, piece.start);
            at += piece.len();
            part
        });
        Origin(parts.collect())
    }
}

impl How<'_> {
    fn level(self, upload: &Upload<'_>, sheet: &Named, origin: &Origin) -> Level {
        let settings = Settings::default().enforce_strictness(true);
        let reading = upload.read(sheet.shape.sheet(), &settings);
        let entries = reading.entries();
        Level {
            sheet: sheet.name.clone(),
            kind: sheet.shape.kind(),
            piece: None,
            refused: reading.refusal().map(Refused::from),
            entries: entries
                .map(|entry| self.entry(entry, sheet, origin))
                .collect(),
        }
    }

    fn entry(self, entry: falzheod::Entry<'_>, sheet: &Named, origin: &Origin) -> Entry {
        let member = entry.member();
        let below = self.sheets.below(sheet, member).filter(|_| self.deep);
        let key = entry.key().map(shown);
        let (value, read) = match entry {
            falzheod::Entry::Text { text, .. } => (Value::Text(shown(&text)), Read::Not),
            falzheod::Entry::Failed { refusal, .. } => (Value::Failed(refusal.into()), Read::Not),
            falzheod::Entry::Piece { piece, .. } => {
                let place = origin.of(piece.range());
                let read = below.map(|sheet| self.piece(piece, sheet, place.clone()));
                let read = read.map_or(Read::Not, |level| Read::Whole(Box::new(level)));
                (Value::Piece(place), read)
            }
            falzheod::Entry::Group { group, .. } => {
                let places: Vec<_> = group.pieces().map(|p| origin.of(p.range())).collect();
                let read = below.map(|sheet| self.group(group, sheet, &places));
                (Value::Group(places), read.unwrap_or(Read::Not))
            }
        };
        let name = name_of(&sheet.shape, member);
        Entry {
            member,
            name,
            key,
            value,
            read,
        }
    }

    fn piece(self, piece: Piece<'_>, sheet: &Named, place: Range<usize>) -> Level {
        let origin = Origin(vec![(0, place.start)]);
        let level = self.level(&piece.upload(), sheet, &origin);
        let piece = Some(place);
        Level { piece, ..level }
    }

    /// A structure reads each piece of a group; a list or a map the group as a whole.
    fn group(self, group: Group<'_>, sheet: &Named, places: &[Range<usize>]) -> Read {
        if let Shape::Structure(_) = sheet.shape {
            let pieces = group.pieces().zip(places);
            let levels = pieces.map(|(piece, place)| self.piece(piece, sheet, place.clone()));
            return Read::Each(levels.collect());
        }
        let level = match group.upload() {
            Ok(upload) => self.level(&upload, sheet, &Origin::of_group(places)),
            Err(error) => too_large(sheet, &error),
        };
        Read::Whole(Box::new(level))
    }
}

/// A group that is larger than a body may be.
fn too_large(sheet: &Named, error: &CheckError) -> Level {
    Level {
        sheet: sheet.name.clone(),
        kind: sheet.shape.kind(),
        piece: None,
        refused: Some(Refused {
            number: Refusal::Table.number(),
            message: match error {
                CheckError::TooLarge { limit, .. } => {
                    format!("the group with its two tags has {limit}")
                }
                other => format!("the group is not read: {other}"),
            },
        }),
        entries: Vec::new(),
    }
}

fn shown(text: &Text<'_>) -> String {
    String::from_utf8_lossy(text.as_bytes()).into_owned()
}

/// The name of a member: its own, else the one in XML.
fn name_of(shape: &Shape, member: usize) -> Option<String> {
    let Shape::Structure(sheet) = shape else {
        return None;
    };
    let member = sheet.members().get(member)?;
    let name = member.own_name().unwrap_or(member.asked());
    Some(String::from_utf8_lossy(name).into_owned())
}

/// The two names, where the root's is another than the sheet says.
fn root_names(upload: &Upload<'_>, shape: &Shape, number: u32) -> String {
    let (Shape::Structure(sheet), true) = (shape, number == Refusal::RootName.number()) else {
        return String::new();
    };
    let found = visible_bytes(upload.root_name().as_bytes());
    let wanted = visible_bytes(sheet.root_name());
    format!(": it is {found}, and the sheet says {wanted}")
}
