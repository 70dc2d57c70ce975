//! Sheets (document 01, "Sheets and entries"): read from bytes, and made at random,
//! with names that stand in a body and names that do not.

use crate::random::Random;
use oracle::Kind;

/// A member of a structure.
#[derive(Clone, Debug, Default)]
pub struct Member {
    pub xml_name: Option<Vec<u8>>,
    pub member_name: Option<Vec<u8>>,
    pub attribute: bool,
    pub flattened: bool,
    pub aggregate: bool,
}

impl Member {
    /// "The XML name goes before the member name."
    pub fn name(&self) -> Option<&[u8]> {
        self.xml_name.as_deref().or(self.member_name.as_deref())
    }
}

#[derive(Clone, Debug, Default)]
pub struct Structure {
    pub xml_name: Option<Vec<u8>>,
    pub original_name: Option<Vec<u8>>,
    pub member_name: Option<Vec<u8>>,
    pub unwrapped: bool,
    pub shape_name: Vec<u8>,
    pub members: Vec<Member>,
}

#[derive(Clone, Debug, Default)]
pub struct List {
    pub member: bool,
    pub flattened: bool,
    pub xml_name: Option<Vec<u8>>,
    pub member_name: Option<Vec<u8>>,
}

#[derive(Clone, Debug, Default)]
pub struct Map {
    pub flattened: bool,
    pub key: Option<Vec<u8>>,
    pub has_value: bool,
    pub value: Option<Vec<u8>>,
    pub aggregate: bool,
}

/// The bytes of a sheet, taken from the front; `None` where they are broken.
struct Front<'a>(&'a [u8]);

impl Front<'_> {
    fn byte(&mut self, below: u16) -> Option<u8> {
        let (byte, rest) = self.0.split_first()?;
        self.0 = rest;
        (u16::from(*byte) < below).then_some(*byte)
    }

    fn name(&mut self) -> Option<Vec<u8>> {
        let length = usize::from(self.byte(256)?);
        if length == 0 || self.0.len() < length {
            return None;
        }
        let (name, rest) = self.0.split_at(length);
        self.0 = rest;
        Some(name.to_vec())
    }

    fn name_if(&mut self, stands: bool) -> Option<Option<Vec<u8>>> {
        if stands {
            self.name().map(Some)
        } else {
            Some(None)
        }
    }

    fn end<T>(self, sheet: T) -> Option<T> {
        self.0.is_empty().then_some(sheet)
    }
}

/// A bit map and the fields whose bits stand.
#[derive(Default)]
struct Bytes(Vec<u8>);

impl Bytes {
    fn name(&mut self, name: &[u8]) {
        self.0.push(name.len() as u8);
        self.0.extend_from_slice(name);
    }

    fn names(&mut self, names: &[&Option<Vec<u8>>]) {
        for name in names.iter().copied().flatten() {
            self.name(name);
        }
    }
}

fn bits(bits: &[bool]) -> u8 {
    bits.iter()
        .rev()
        .fold(0, |sum, bit| sum * 2 + u8::from(*bit))
}

impl Structure {
    pub fn of(bytes: &[u8]) -> Option<Self> {
        let mut front = Front(bytes);
        let bits = front.byte(16)?;
        let mut sheet = Structure {
            xml_name: front.name_if(bits & 1 != 0)?,
            original_name: front.name_if(bits & 2 != 0)?,
            member_name: front.name_if(bits & 4 != 0)?,
            unwrapped: bits & 8 != 0,
            shape_name: front.name()?,
            members: Vec::new(),
        };
        for _ in 0..front.byte(65)? {
            let bits = front.byte(32)?;
            sheet.members.push(Member {
                xml_name: front.name_if(bits & 1 != 0)?,
                member_name: front.name_if(bits & 2 != 0)?,
                attribute: bits & 4 != 0,
                flattened: bits & 8 != 0,
                aggregate: bits & 16 != 0,
            });
        }
        front.end(sheet)
    }

    pub fn bytes(&self) -> Vec<u8> {
        let mut out = Bytes::default();
        let names = [&self.xml_name, &self.original_name, &self.member_name];
        out.0.push(bits(&[
            names[0].is_some(),
            names[1].is_some(),
            names[2].is_some(),
            self.unwrapped,
        ]));
        out.names(&names);
        out.name(&self.shape_name);
        out.0.push(self.members.len() as u8);
        for member in &self.members {
            let names = [&member.xml_name, &member.member_name];
            let flags = [member.attribute, member.flattened, member.aggregate];
            out.0.push(bits(&[
                names[0].is_some(),
                names[1].is_some(),
                flags[0],
                flags[1],
                flags[2],
            ]));
            out.names(&names);
        }
        out.0
    }

    pub fn root_name(&self) -> &[u8] {
        let names = [&self.xml_name, &self.original_name, &self.member_name];
        names
            .into_iter()
            .flatten()
            .next()
            .unwrap_or(&self.shape_name)
    }

    /// `resolve_member`: attribute members are candidates too.
    pub fn resolve(&self, local: &[u8]) -> Option<usize> {
        self.members
            .iter()
            .position(|member| member.name() == Some(local))
    }

    pub fn random(random: &mut Random, names: &[&[u8]]) -> Self {
        let count = [0, 1, 1, 2, 2, 3, 4, 6, 9, 64][random.below(10)];
        let members = (0..count).map(|_| Member {
            xml_name: some(random, names, 60),
            member_name: some(random, names, 60),
            attribute: random.chance(25),
            flattened: random.chance(35),
            aggregate: random.chance(50),
        });
        let members = members.collect();
        Structure {
            xml_name: some(random, names, 20),
            original_name: some(random, names, 15),
            member_name: some(random, names, 15),
            unwrapped: random.chance(6),
            shape_name: a_name(random, names),
            members,
        }
    }
}

impl List {
    pub fn of(bytes: &[u8]) -> Option<Self> {
        let mut front = Front(bytes);
        let bits = front.byte(16)?;
        if bits & 1 == 0 && bits & 12 != 0 {
            return None;
        }
        let sheet = List {
            member: bits & 1 != 0,
            flattened: bits & 2 != 0,
            xml_name: front.name_if(bits & 4 != 0)?,
            member_name: front.name_if(bits & 8 != 0)?,
        };
        front.end(sheet)
    }

    pub fn bytes(&self) -> Vec<u8> {
        let mut out = Bytes::default();
        let names = [&self.xml_name, &self.member_name];
        out.0.push(bits(&[
            self.member,
            self.flattened,
            names[0].is_some(),
            names[1].is_some(),
        ]));
        out.names(&names);
        out.0
    }

    /// The name that items must have, if they must have one.
    pub fn item_name(&self) -> Option<&[u8]> {
        let name = self.xml_name.as_deref().or(self.member_name.as_deref());
        (self.member && !self.flattened).then(|| name.unwrap_or(b"member"))
    }

    pub fn random(random: &mut Random, names: &[&[u8]]) -> Self {
        let member = random.chance(80);
        let percent = if member { 45 } else { 3 };
        List {
            member,
            flattened: random.chance(25),
            xml_name: some(random, names, percent),
            member_name: some(random, names, percent),
        }
    }
}

impl Map {
    pub fn of(bytes: &[u8]) -> Option<Self> {
        let mut front = Front(bytes);
        let bits = front.byte(32)?;
        if bits & 4 == 0 && bits & 24 != 0 {
            return None;
        }
        let sheet = Map {
            flattened: bits & 1 != 0,
            key: front.name_if(bits & 2 != 0)?,
            has_value: bits & 4 != 0,
            value: front.name_if(bits & 8 != 0)?,
            aggregate: bits & 16 != 0,
        };
        front.end(sheet)
    }

    pub fn bytes(&self) -> Vec<u8> {
        let mut out = Bytes::default();
        let flags = [
            self.flattened,
            self.key.is_some(),
            self.has_value,
            self.value.is_some(),
            self.aggregate,
        ];
        out.0.push(bits(&flags));
        out.names(&[&self.key, &self.value]);
        out.0
    }

    pub fn key_name(&self) -> &[u8] {
        self.key.as_deref().unwrap_or(b"key")
    }

    pub fn value_name(&self) -> &[u8] {
        self.value.as_deref().unwrap_or(b"value")
    }

    pub fn random(random: &mut Random, names: &[&[u8]]) -> Self {
        let has_value = random.chance(85);
        let usual = random.chance(70);
        let mut name = |usual_name: &[u8], percent| {
            if usual {
                random.chance(percent).then(|| usual_name.to_vec())
            } else {
                some(random, names, percent)
            }
        };
        let key = name(b"k", 50);
        let value = name(b"v", if has_value { 50 } else { 3 });
        Map {
            flattened: random.chance(40),
            key,
            has_value,
            value,
            aggregate: has_value && random.chance(40),
        }
    }
}

/// The bytes of a sheet for a reading, with names out of `names` and with others.
pub fn random(kind: Kind, random: &mut Random, names: &[&[u8]]) -> Vec<u8> {
    match kind {
        Kind::Struct => Structure::random(random, names).bytes(),
        Kind::Map => Map::random(random, names).bytes(),
        Kind::List | Kind::Strings => List::random(random, names).bytes(),
    }
}

const NAMES: [&[u8]; 14] = [
    b"a",
    b"b",
    b"c",
    b"n",
    b"r",
    b"key",
    b"value",
    b"entry",
    b"member",
    b"x",
    b"p:a",
    b"xsi:type",
    b":x",
    b"a:b:c",
];

fn a_name(random: &mut Random, names: &[&[u8]]) -> Vec<u8> {
    if names.is_empty() || random.chance(20) {
        return random.pick(&NAMES).to_vec();
    }
    let name = random.pick(names);
    match random.below(40) {
        0 => [b"p:".as_slice(), name].concat(),
        1 => [name, b"x".as_slice()].concat(),
        2 => vec![0xC3; 1 + random.below(3)],
        _ => name.to_vec(),
    }
}

fn some(random: &mut Random, names: &[&[u8]], percent: usize) -> Option<Vec<u8>> {
    random.chance(percent).then(|| a_name(random, names))
}

/// The names in a table, each as often as it stands there: local names, and names
/// with their prefix. None is longer than a sheet can say.
pub fn names_in<'b>(body: &'b [u8], numbers: &[u32]) -> Vec<&'b [u8]> {
    let mut names: Vec<&[u8]> = Vec::new();
    for row in numbers
        .chunks_exact(8)
        .filter(|row| matches!(row[0], 1 | 2))
    {
        let part = |first: usize, last: usize| {
            let (start, end) = (
                row[first] as usize,
                row[last] as usize + row[last + 1] as usize,
            );
            body.get(start..end)
        };
        names.extend(part(3, 3));
        if row[2] > 0 {
            names.extend(part(1, 3));
        }
    }
    names.retain(|name| (1..=255).contains(&name.len()));
    names
}

/// The sheet as it is, or, now and then, with a byte changed, cut off or put behind.
pub fn maybe_broken(mut sheet: Vec<u8>, random: &mut Random) -> Vec<u8> {
    if random.chance(93) {
        return sheet;
    }
    let at = random.below(sheet.len());
    match random.below(4) {
        0 => sheet.truncate(at),
        1 => sheet.push(random.below(256) as u8),
        2 => sheet[at] = random.below(256) as u8,
        _ => drop(sheet.remove(at)),
    }
    sheet
}
