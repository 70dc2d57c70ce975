//! Tables that no tokenizer made: good ones with something changed, ones that are grown
//! row by row over bytes that need be no document, and ones that are dear to drain.

use crate::random::Random;
use crate::rules::Lent;
use crate::texts::NOT_UTF8;

/// A table to be changed and lent.
#[derive(Clone)]
pub struct Made {
    pub body: Vec<u8>,
    pub numbers: Vec<u32>,
    pub end: u32,
}

impl Made {
    /// The Rust's own table of a body.
    pub fn of(body: &[u8]) -> Self {
        let table = oracle::table::table(body);
        Made {
            body: body.to_vec(),
            numbers: table.rows.concat(),
            end: table.end,
        }
    }

    pub fn lent(&self) -> Lent<'_> {
        Lent {
            body: &self.body,
            numbers: &self.numbers,
            end: self.end,
        }
    }

    pub fn rows(&self) -> usize {
        self.numbers.len() / 8
    }

    fn row(&self, index: usize) -> [u32; 8] {
        self.numbers[8 * index..][..8].try_into().expect("eight")
    }

    fn insert(&mut self, index: usize, row: [u32; 8]) {
        self.numbers.splice(8 * index..8 * index, row);
    }

    fn drop_row(&mut self, index: usize) {
        self.numbers.drain(8 * index..8 * index + 8);
    }

    /// With one number changed; the final position stands behind the rows.
    fn with_number(&self, place: usize, value: u32) -> Self {
        let mut made = self.clone();
        match made.numbers.get_mut(place) {
            Some(number) => *number = value,
            None => made.end = value,
        }
        made
    }

    /// The values to try in the place of one number: the least, the next, the last,
    /// large ones, the body's length, and what stands around it.
    fn values(&self, place: usize) -> Vec<u32> {
        let number = *self.numbers.get(place).unwrap_or(&self.end);
        let length = self.body.len() as u32;
        let mut values = vec![
            0,
            1,
            number.wrapping_add(1),
            number.wrapping_sub(1),
            length,
            length + 1,
            65_536,
            0x8000_0000,
            u32::MAX - 1,
            u32::MAX,
            self.end,
        ];
        let neighbours = [-8, -1, 1, 8].map(|step| place.checked_add_signed(step));
        values.extend(
            neighbours
                .iter()
                .flatten()
                .filter_map(|at| self.numbers.get(*at)),
        );
        let field = place % 8;
        if field == 0 {
            // a kind
            values.extend(0..=9);
        }
        values.sort_unstable();
        values.dedup();
        values.retain(|value| *value != number);
        values
    }
}

/// Every change of one thing: each number to each of its values, rows dropped,
/// doubled and swapped with the next, each byte, bytes cut off and put behind, and
/// numbers cut off and put behind.
pub fn every_change(made: &Made, mut see: impl FnMut(&Made)) {
    for place in 0..=made.numbers.len() {
        for value in made.values(place) {
            see(&made.with_number(place, value));
        }
    }
    for index in 0..made.rows() {
        see(&doubled(made, index));
        see(&dropped(made, index));
        see(&swapped(made, index));
    }
    for count in 1..=made.numbers.len().min(9) {
        let mut cut = made.clone();
        cut.numbers.truncate(made.numbers.len() - count);
        see(&cut);
        let mut more = made.clone();
        more.numbers.extend([0; 9].iter().take(count));
        see(&more);
    }
    for at in 0..made.body.len() {
        for byte in *b"<>/&;:= ab\"'\0\x80\xC3\xFF" {
            let mut changed = made.clone();
            changed.body[at] = byte;
            see(&changed);
        }
    }
    for length in 0..made.body.len() {
        let mut cut = made.clone();
        cut.body.truncate(length);
        see(&cut);
    }
}

fn doubled(made: &Made, index: usize) -> Made {
    let mut changed = made.clone();
    changed.insert(index, made.row(index));
    changed
}

fn dropped(made: &Made, index: usize) -> Made {
    let mut changed = made.clone();
    changed.drop_row(index);
    changed
}

/// A row in the place of the next one; the last goes to the front.
fn swapped(made: &Made, index: usize) -> Made {
    let mut changed = dropped(made, index);
    changed.insert((index + 1) % made.rows(), made.row(index));
    changed
}

/// One to three changes at random.
pub fn changed(made: &Made, random: &mut Random) -> Made {
    let mut made = made.clone();
    for _ in 0..[1, 1, 1, 1, 2, 3][random.below(6)] {
        change(&mut made, random);
    }
    made
}

fn change(made: &mut Made, random: &mut Random) {
    let place = random.below(made.numbers.len() + 1);
    let values = made.values(place);
    if random.chance(55) {
        *made = made.with_number(place, values[random.below(values.len())]);
        return;
    }
    if random.chance(40) && made.rows() > 0 {
        let index = random.below(made.rows());
        *made = [doubled, dropped, swapped, moved_positions][random.below(4)](made, index);
        return;
    }
    let at = random.below(made.body.len() + 1);
    match random.below(5) {
        0 => drop(
            made.body
                .splice(at..at, random.pick(&NOT_UTF8).iter().copied()),
        ),
        1 => made.body.truncate(at),
        2 => made.numbers.truncate(place),
        _ if at < made.body.len() => made.body[at] = b"<>/&;:= ab\"'\0\xC3"[random.below(14)],
        _ => made.body.push(b'>'),
    }
}

/// A token less in front of the row: its places and all behind it, one to the left.
fn moved_positions(made: &Made, index: usize) -> Made {
    let mut changed = made.clone();
    for number in &mut changed.numbers[8 * index..] {
        if *number > 8 {
            *number -= 1;
        }
    }
    changed
}

/// The bytes of grown tables: few names, so that some are alike.
const BYTES: [&str; 14] = [
    "<", "<", "<", ">", ">", "/>", "/>", "a", "a", "b", ":", "&lt;", "&", "é",
];

/// A table grown over random bytes, each row keeping the rules as far as the bytes
/// allow it: what no tokenizer gives, but a caller may lend.
pub fn grown(random: &mut Random) -> Made {
    let count = random.below(40);
    let body: String = (0..count).map(|_| random.pick(&BYTES)).collect();
    let mut growth = Growth {
        made: Made {
            body: body.into_bytes(),
            numbers: Vec::new(),
            end: 0,
        },
        previous: 0,
        open: Vec::new(),
        in_tag: false,
    };
    for _ in 0..1 + random.below(12) {
        if !growth.grow(random) {
            break;
        }
    }
    let mut made = growth.made;
    let room = made.body.len() - growth.previous;
    made.end = (growth.previous + random.below(room + 1)) as u32;
    made
}

struct Growth {
    made: Made,
    previous: usize,
    /// The names of the open elements: prefix and local name.
    open: Vec<[Vec<u8>; 2]>,
    in_tag: bool,
}

impl Growth {
    /// One row more; false at the end.
    fn grow(&mut self, random: &mut Random) -> bool {
        let closed = self.open.is_empty() && !self.made.numbers.is_empty() && !self.in_tag;
        let kinds: &[usize] = match (self.in_tag, self.open.is_empty()) {
            (true, _) => &[2, 2, 3, 3, 3, 5, 5, 8],
            (false, false) => &[1, 1, 4, 4, 4, 4, 6, 6, 7, 8],
            (false, true) if closed => &[7, 7, 7, 8],
            (false, true) => &[1],
        };
        match kinds[random.below(kinds.len())] {
            kind @ (1 | 4) => self.tag(kind, random),
            2 => self.attribute(random),
            3 => self.end(3, b">", random),
            5 => self.end(5, b"/>", random),
            6 => self.text(random),
            kind => {
                let position = self.place(self.previous, self.made.body.len(), random);
                self.push(kind, [0; 6], position)
            }
        }
    }

    /// A place from `low` to `high`, mostly near `low`.
    fn place(&self, low: usize, high: usize, random: &mut Random) -> usize {
        let most = if random.chance(80) { 2 } else { high - low };
        low + random.below(most.min(high - low) + 1)
    }

    fn push(&mut self, kind: usize, spans: [usize; 6], position: usize) -> bool {
        self.made.numbers.push(kind as u32);
        self.made.numbers.extend(spans.map(|number| number as u32));
        self.made.numbers.push(position as u32);
        self.previous = position;
        kind != 8
    }

    /// A place behind the previous position that `tail` stands right before.
    fn behind(&self, low: usize, tail: &[u8], random: &mut Random) -> Option<usize> {
        let places: Vec<usize> = (low..=self.made.body.len())
            .filter(|place| self.made.body[..*place].ends_with(tail))
            .collect();
        let near = places.len().min(2);
        (near > 0).then(|| places[random.below(near)])
    }

    fn end(&mut self, kind: usize, tail: &[u8], random: &mut Random) -> bool {
        let Some(position) = self.behind(self.previous, tail, random) else {
            return false;
        };
        self.in_tag = false;
        if kind == 5 {
            self.open.pop();
        }
        self.push(kind, [0; 6], position)
    }

    /// A span of up to two bytes from `low` on, empty where there are none.
    fn span(&self, low: usize, random: &mut Random) -> [usize; 2] {
        let start = self.place(low, self.made.body.len(), random);
        let end = self.made.body.len().min(start + random.below(3));
        [start, end - start]
    }

    fn bytes(&self, [start, length]: [usize; 2]) -> Vec<u8> {
        self.made.body[start..start + length].to_vec()
    }

    /// A span that is written 0 and 0 where it is empty.
    fn or_zero(span: [usize; 2]) -> [usize; 2] {
        if span[1] == 0 {
            [0, 0]
        } else {
            span
        }
    }

    fn tag(&mut self, kind: usize, random: &mut Random) -> bool {
        let Some(behind_angle) = self.behind(self.previous + 1, b"<", random) else {
            return false;
        };
        let rest = &self.made.body[behind_angle..];
        let next = rest
            .iter()
            .position(|byte| *byte == b'<')
            .unwrap_or(rest.len());
        // an end tag looks for its element's name, most of the time
        let wanted = match self.open.last() {
            Some([_, local]) if kind == 4 && random.chance(85) => local.clone(),
            _ => rest[..next.min(random.below(3))].to_vec(),
        };
        let found = (0..=next).find(|at| rest[*at..].starts_with(&wanted));
        let local = [
            behind_angle + found.unwrap_or(0),
            if found.is_some() { wanted.len() } else { 0 },
        ];
        let prefix = if random.chance(15) {
            Self::or_zero(self.span(behind_angle, random))
        } else {
            [0, 0]
        };
        let least = (local[0] + local[1]).max(prefix[0] + prefix[1]);
        let position = if kind == 1 {
            Some(self.place(least, self.made.body.len(), random))
        } else {
            self.behind(least, b">", random)
        };
        let Some(position) = position else {
            return false;
        };
        if kind == 1 {
            self.open.push([prefix, local].map(|span| self.bytes(span)));
            self.in_tag = true;
        } else {
            self.open.pop();
        }
        let spans = [prefix[0], prefix[1], local[0], local[1], 0, 0];
        self.push(kind, spans, position)
    }

    fn attribute(&mut self, random: &mut Random) -> bool {
        let local = self.span(self.previous, random);
        let value = Self::or_zero(self.span(self.previous, random));
        let prefix = if random.chance(20) {
            Self::or_zero(self.span(self.previous, random))
        } else {
            [0, 0]
        };
        let ends = [prefix, local, value].map(|span| span[0] + span[1]);
        let least = ends.into_iter().fold(self.previous, usize::max);
        let position = self.place(least, self.made.body.len(), random);
        let spans = [prefix[0], prefix[1], local[0], local[1], value[0], value[1]];
        self.push(2, spans, position)
    }

    fn text(&mut self, random: &mut Random) -> bool {
        let value = Self::or_zero(self.span(self.previous, random));
        let least = self.previous.max(value[0] + value[1]);
        let position = self.place(least, self.made.body.len(), random);
        self.push(6, [0, 0, 0, 0, value[0], value[1]], position)
    }
}

/// One start tag with as many attributes as there are rows, eight bytes each and nothing
/// between them. The spans of a row may overlap: its prefix is the first `alike` bytes, and
/// its local name all eight.
pub fn start_tag(names: &[String], alike: u32) -> Made {
    let body = format!("<r{}/>", names.concat());
    let mut numbers = vec![1, 0, 0, 1, 1, 0, 0, 2];
    for start in (2..).step_by(8).take(names.len()) {
        numbers.extend([2, start, alike, start, 8, 0, 0, start + 8]);
    }
    let end = body.len() as u32;
    numbers.extend([5, 0, 0, 0, 0, 0, 0, end]);
    Made {
        body: body.into_bytes(),
        numbers,
        end,
    }
}
