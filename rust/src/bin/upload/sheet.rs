//! Sheets as text: a few lines for each, the first for the root. help.txt has the words.

mod block;
mod line;
mod member;
mod write;

pub use write::text;

use crate::files::Source;
use crate::visible::visible_bytes;
use block::{Block, Draft};
use falzheod::{ListSheet, MapSheet, Sheet, StructSheet};
use line::Line;
use std::collections::HashMap;

/// The most bytes of a file of sheets.
const MOST: usize = 1 << 20;

/// The sheets of a file; the first is the root's.
pub struct Sheets(Vec<Named>);

/// A sheet with its name in the file.
pub struct Named {
    pub name: String,
    pub shape: Shape,
    /// Which sheet reads the pieces of each member, of the items or of the values.
    by: Vec<Option<usize>>,
}

/// What a sheet is of.
#[derive(Debug, PartialEq, Eq)]
pub enum Shape {
    Structure(StructSheet),
    List(ListSheet),
    Strings(ListSheet),
    Map(MapSheet),
}

/// What is wrong, and in which line.
pub type Problem = (usize, String);

impl Sheets {
    /// The sheets in a file, or what is wrong.
    pub fn read(source: &Source) -> Result<Sheets, String> {
        let file = source.shown();
        let bytes = source.bytes(MOST + 1);
        let bytes = bytes.map_err(|error| format!("{file}: {error}"))?;
        if bytes.len() > MOST {
            return Err(format!("{file}: more than {MOST} bytes, so no sheet"));
        }
        let sheets = Sheets::parse(&bytes);
        sheets.map_err(|(line, problem)| format!("{file}:{line}: {problem}"))
    }

    pub fn parse(text: &[u8]) -> Result<Sheets, Problem> {
        let drafts = Block::all(Line::all(text)?)?
            .into_iter()
            .map(Block::draft)
            .collect::<Result<Vec<Draft>, Problem>>()?;
        let places = places(&drafts)?;
        let by: Vec<_> = drafts
            .iter()
            .map(|draft| resolved(draft, &places))
            .collect();
        let named = drafts.into_iter().zip(by).map(|(draft, by)| {
            Ok(Named {
                name: visible_bytes(&draft.name),
                shape: draft.shape,
                by: by?,
            })
        });
        named.collect::<Result<_, Problem>>().map(Sheets)
    }

    pub fn root(&self) -> &Named {
        &self.0[0]
    }

    /// The sheet that reads the pieces of a member, of the items or of the values.
    pub fn below(&self, sheet: &Named, member: usize) -> Option<&Named> {
        let index = *sheet.by.get(member)?;
        self.0.get(index?)
    }
}

/// The place of each sheet by its name.
fn places(drafts: &[Draft]) -> Result<HashMap<Vec<u8>, usize>, Problem> {
    let mut places = HashMap::new();
    for (index, draft) in drafts.iter().enumerate() {
        if places.insert(draft.name.clone(), index).is_some() {
            let name = visible_bytes(&draft.name);
            return Err((draft.line, format!("a second sheet is named {name}")));
        }
    }
    Ok(places)
}

/// The sheets that a draft names, by their places.
fn resolved(
    draft: &Draft,
    places: &HashMap<Vec<u8>, usize>,
) -> Result<Vec<Option<usize>>, Problem> {
    let place = |by: &Option<(usize, Vec<u8>)>| {
        let Some((line, name)) = by else {
            return Ok(None);
        };
        match places.get(name) {
            Some(index) => Ok(Some(*index)),
            None => Err((*line, format!("no sheet is named {}", visible_bytes(name)))),
        }
    };
    draft.by.iter().map(place).collect()
}

impl Shape {
    /// The sheet as a reading takes it.
    pub fn sheet(&self) -> Sheet<'_> {
        match self {
            Shape::Structure(sheet) => Sheet::Struct(sheet),
            Shape::List(sheet) => Sheet::List(sheet),
            Shape::Strings(sheet) => Sheet::StringList(sheet),
            Shape::Map(sheet) => Sheet::Map(sheet),
        }
    }

    /// The word for its kind.
    pub fn kind(&self) -> &'static str {
        match self {
            Shape::Structure(_) => "structure",
            Shape::List(_) => "list",
            Shape::Strings(_) => "strings",
            Shape::Map(_) => "map",
        }
    }

    /// The sheet of a kind that has these bytes.
    pub fn of_bytes(kind: &str, bytes: &[u8]) -> Result<Shape, String> {
        let shape = match kind {
            "structure" => StructSheet::parse(bytes).map(Shape::Structure),
            "list" => ListSheet::parse(bytes).map(Shape::List),
            "strings" => ListSheet::parse(bytes).map(Shape::Strings),
            "map" => MapSheet::parse(bytes).map(Shape::Map),
            other => {
                return Err(format!(
                    "a sheet is a structure, list, strings or map, not {other}"
                ))
            }
        };
        shape.map_err(|error| error.to_string())
    }
}
