//! The lines of one sheet: its head, and what belongs to it.

use super::line::Line;
use super::member::{item, member, value};
use super::{Problem, Shape};
use falzheod::{ListBuilder, ListSheet, MapSheet, SheetError, StructBuilder, StructSheet};

pub const KINDS: [&str; 4] = ["structure", "list", "strings", "map"];

/// The name of the sheet that reads something, and the line that says so.
pub type By = Option<(usize, Vec<u8>)>;

/// The lines of one sheet.
pub struct Block {
    kind: &'static str,
    head: Line,
    lines: Vec<Line>,
}

/// A sheet that may name sheets that are not there.
pub struct Draft {
    pub line: usize,
    pub name: Vec<u8>,
    pub shape: Shape,
    pub by: Vec<By>,
}

impl Block {
    /// The sheets of a file, of which there is one at least.
    pub fn all(lines: Vec<Line>) -> Result<Vec<Block>, Problem> {
        let mut blocks: Vec<Block> = Vec::new();
        for mut line in lines {
            match KINDS.into_iter().find(|kind| line.takes(kind)) {
                Some(kind) => blocks.push(Block {
                    kind,
                    head: line,
                    lines: Vec::new(),
                }),
                None => match blocks.last_mut() {
                    Some(block) => block.lines.push(line),
                    None => {
                        let word = line.shown();
                        return line.wrong(format!(
                            "a sheet begins with structure, list, strings or map, not {word}"
                        ));
                    }
                },
            }
        }
        if blocks.is_empty() {
            return Err((1, "no sheet is here".to_string()));
        }
        Ok(blocks)
    }

    pub fn draft(mut self) -> Result<Draft, Problem> {
        let line = self.head.number;
        let name = self.head.name("name of the sheet")?;
        let (shape, by) = match self.kind {
            "structure" => self.structure(&name)?,
            "map" => self.map()?,
            "list" => {
                let (list, by) = self.list()?;
                (Shape::List(list), by)
            }
            _ => {
                let (list, by) = self.list()?;
                (Shape::Strings(list), by)
            }
        };
        Ok(Draft {
            line,
            name,
            shape,
            by,
        })
    }

    fn structure(self, name: &[u8]) -> Result<(Shape, Vec<By>), Problem> {
        let number = self.head.number;
        let (mut builder, is_unwrapped) = structure_head(self.head, name)?;
        let mut by = Vec::new();
        for line in self.lines {
            let (next, read_by) = member(line, is_unwrapped)?;
            builder = builder.member(next);
            by.push(read_by);
        }
        Ok((Shape::Structure(built(number, builder.build())?), by))
    }

    /// A list, of pieces or of strings.
    fn list(self) -> Result<(ListSheet, Vec<By>), Problem> {
        let number = self.head.number;
        let is_strings = self.kind == "strings";
        let mut builder = ListSheet::builder();
        if flattened_head(self.head)? {
            builder = builder.flattened();
        }
        let mut by = Vec::new();
        for line in self.lines {
            if !by.is_empty() {
                return line.wrong("a list has one item line at most");
            }
            let (next, read_by): (ListBuilder, By) = item(line, builder, is_strings)?;
            builder = next;
            by.push(read_by);
        }
        Ok((built(number, builder.build())?, by))
    }

    fn map(self) -> Result<(Shape, Vec<By>), Problem> {
        let number = self.head.number;
        let mut builder = MapSheet::builder();
        if flattened_head(self.head)? {
            builder = builder.flattened();
        }
        let (mut has_key, mut by) = (false, Vec::new());
        for mut line in self.lines {
            let is_key = line.takes("key");
            if is_key && !has_key {
                has_key = true;
                builder = builder.key_xml_name(line.name("name of the keys")?);
                line.end("nothing may follow")?;
            } else if !is_key && by.is_empty() {
                let (next, read_by) = value(line, builder)?;
                builder = next;
                by.push(read_by);
            } else {
                return line.wrong("a map has one key line and one value line at most");
            }
        }
        Ok((Shape::Map(built(number, builder.build())?), by))
    }
}

/// The words behind the name of a structure.
fn structure_head(mut head: Line, name: &[u8]) -> Result<(StructBuilder, bool), Problem> {
    let shape = head.name_behind("shape")?;
    let mut builder = StructSheet::builder(shape.as_deref().unwrap_or(name));
    if let Some(name) = head.name_behind("named")? {
        builder = builder.xml_name(name);
    }
    if let Some(name) = head.name_behind("original")? {
        builder = builder.original_name(name);
    }
    if let Some(name) = head.name_behind("member")? {
        builder = builder.member_name(name);
    }
    let is_unwrapped = head.takes("unwrapped");
    if is_unwrapped {
        builder = builder.unwrapped();
    }
    head.end("shape, named, original, member and unwrapped may follow, in this order")?;
    Ok((builder, is_unwrapped))
}

fn flattened_head(mut head: Line) -> Result<bool, Problem> {
    let is_flattened = head.takes("flattened");
    head.end("flattened may follow")?;
    Ok(is_flattened)
}

fn built<T>(line: usize, sheet: Result<T, SheetError>) -> Result<T, Problem> {
    sheet.map_err(|error| (line, error.to_string()))
}
