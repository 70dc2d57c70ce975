//! The lines of a sheet below its head: members, items, keys and values.

use super::block::By;
use super::line::Line;
use super::Problem;
use falzheod::{ListBuilder, MapBuilder, Member};

pub const FLAGS: [&str; 4] = ["attribute", "flattened", "aggregate", "scalar"];

/// Which of the four words stand at the front of a line.
fn flags(line: &mut Line) -> Result<[bool; 4], Problem> {
    let mut stand = [false; 4];
    while let Some(flag) = FLAGS.iter().position(|flag| line.takes(flag)) {
        if stand[flag] {
            return line.wrong(format!("{} stands twice", FLAGS[flag]));
        }
        stand[flag] = true;
    }
    if stand[2] && stand[3] {
        return line.wrong("a scalar is no aggregate");
    }
    Ok(stand)
}

/// `by SHEET`, which only pieces can have.
fn by(line: &mut Line, has_pieces: bool) -> Result<By, Problem> {
    let Some(name) = line.name_behind("by")? else {
        return Ok(None);
    };
    if !has_pieces {
        return line.wrong("only an aggregate is read by a sheet");
    }
    Ok(Some((line.number, name)))
}

/// A member of a structure; where that is unwrapped each may come as a piece.
pub fn member(mut line: Line, is_unwrapped: bool) -> Result<(Member, By), Problem> {
    let word = line.shown();
    let stand = flags(&mut line)?;
    if stand == [false; 4] {
        return line.wrong(format!(
            "a member begins with attribute, flattened, aggregate or scalar, not {word}"
        ));
    }
    let [attribute, flattened, aggregate, _] = stand;
    let mut member = match line.name_or_none("name of the member")? {
        Some(name) => Member::new(name),
        None => Member::nameless(),
    };
    if let Some(name) = line.name_behind("named")? {
        member = member.xml_name(name);
    }
    if attribute {
        member = member.attribute();
    }
    if flattened {
        member = member.flattened();
    }
    if aggregate {
        member = member.aggregate();
    }
    let by = by(&mut line, aggregate || is_unwrapped)?;
    line.end("named and by may follow, in this order")?;
    Ok((member, by))
}

/// The item of a list.
pub fn item(
    mut line: Line,
    builder: ListBuilder,
    is_strings: bool,
) -> Result<(ListBuilder, By), Problem> {
    if !line.takes("item") {
        let word = line.shown();
        return line.wrong(format!("below a list stands item, not {word}"));
    }
    let mut builder = match line.name_if_any("name of the items")? {
        Some(name) => builder.item(name),
        None => builder.nameless_item(),
    };
    if let Some(name) = line.name_behind("named")? {
        builder = builder.item_xml_name(name);
    }
    let by = by(&mut line, !is_strings)?;
    line.end("named and by may follow, in this order")?;
    Ok((builder, by))
}

/// The value of a map.
pub fn value(mut line: Line, builder: MapBuilder) -> Result<(MapBuilder, By), Problem> {
    let aggregate = line.takes("aggregate");
    if !aggregate {
        line.takes("scalar");
    }
    if !line.takes("value") {
        let word = line.shown();
        return line.wrong(format!("below a map stand key and value, not {word}"));
    }
    let mut builder = if aggregate {
        builder.aggregate_value()
    } else {
        builder.scalar_value()
    };
    if let Some(name) = line.name_if_any("name of the values")? {
        builder = builder.value_xml_name(name);
    }
    let by = by(&mut line, aggregate)?;
    line.end("by may follow")?;
    Ok((builder, by))
}
