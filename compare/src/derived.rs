//! Sheets that fit a body: the root's name, its attributes and children as members, its
//! first child as the item, and names of the children's children as key and value. Some
//! are left out and some are put in, so that a reading also meets what it passes over.

use crate::random::Random;
use crate::sheets::{List, Map, Member, Structure};
use oracle::Kind;

/// The local names of a table by where they stand. Each of the last three has a name
/// once, in the order in which they come, and none that a sheet cannot say.
#[derive(Default)]
struct Names<'b> {
    root: Option<&'b [u8]>,
    attributes: Vec<&'b [u8]>,
    children: Vec<&'b [u8]>,
    fields: Vec<&'b [u8]>,
}

impl<'b> Names<'b> {
    fn of(body: &'b [u8], numbers: &[u32]) -> Self {
        let mut names = Names::default();
        let mut depth = 0_usize;
        for row in numbers.chunks_exact(8) {
            let (start, length) = (row[3] as usize, row[4] as usize);
            let local = body.get(start..start.saturating_add(length));
            let local = local.filter(|local| (1..=255).contains(&local.len()));
            match (row[0], depth) {
                (1, 0) => names.root = names.root.or(local),
                (1, 1) => once(&mut names.children, local),
                (1, 2) => once(&mut names.fields, local),
                (2, 1) => once(&mut names.attributes, local),
                _ => {}
            }
            match row[0] {
                1 => depth += 1,
                4 | 5 => depth = depth.saturating_sub(1),
                _ => {}
            }
        }
        names
    }
}

fn once<'b>(names: &mut Vec<&'b [u8]>, name: Option<&'b [u8]>) {
    names.extend(name.filter(|name| !names.contains(name)));
}

/// The bytes of a sheet that fits; `None` for a table without a root.
pub fn sheet(kind: Kind, body: &[u8], numbers: &[u32], random: &mut Random) -> Option<Vec<u8>> {
    let names = Names::of(body, numbers);
    let root = names.root?;
    Some(match kind {
        Kind::Struct => structure(root, &names, random).bytes(),
        Kind::Map => map(&names, random).bytes(),
        Kind::List | Kind::Strings => list(&names, random).bytes(),
    })
}

fn structure(root: &[u8], names: &Names<'_>, random: &mut Random) -> Structure {
    let attributes = names.attributes.iter().map(|name| (*name, 90));
    let children = names.children.iter().map(|name| (*name, 8));
    let others = [(b"x".as_slice(), 50), (b"a".as_slice(), 10)];
    let mut members: Vec<Member> = Vec::new();
    for (name, attribute) in attributes.chain(children).chain(others) {
        if random.chance(80) && members.len() < 64 {
            let at = random.below(members.len() + 1);
            members.insert(at, member(name, attribute, random));
        }
    }
    Structure {
        unwrapped: random.chance(5),
        shape_name: root.to_vec(),
        members,
        ..Structure::default()
    }
}

/// A member of that name, an attribute in `attribute` of a hundred.
fn member(name: &[u8], attribute: usize, random: &mut Random) -> Member {
    let by_xml_name = random.chance(50);
    let other = random.chance(20).then(|| b"n".to_vec());
    let name = Some(name.to_vec());
    Member {
        member_name: if by_xml_name { other } else { name.clone() },
        xml_name: name.filter(|_| by_xml_name),
        attribute: random.chance(attribute),
        flattened: random.chance(40),
        aggregate: random.chance(50),
    }
}

fn list(names: &Names<'_>, random: &mut Random) -> List {
    let name = names.children.first().map(|name| name.to_vec());
    let by_xml_name = random.chance(50);
    let member = random.chance(90);
    List {
        member,
        flattened: random.chance(15),
        xml_name: name.clone().filter(|_| member && by_xml_name),
        member_name: name.filter(|_| member && !by_xml_name),
    }
}

fn map(names: &Names<'_>, random: &mut Random) -> Map {
    let (key, value) = match names.fields.as_slice() {
        [] => (None, None),
        [one] => (Some(*one), None),
        many if random.chance(75) => (Some(many[0]), Some(many[1])),
        many => (
            Some(many[random.below(many.len())]),
            Some(many[random.below(many.len())]),
        ),
    };
    let key = key.filter(|key| *key != b"key" || random.chance(50));
    let value = value.filter(|value| *value != b"value" || random.chance(50));
    let has_value = value.is_some() || random.chance(90);
    Map {
        flattened: random.chance(30),
        key: key.map(<[u8]>::to_vec),
        has_value,
        value: value.map(<[u8]>::to_vec),
        aggregate: has_value && random.chance(35),
    }
}
