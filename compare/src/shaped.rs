//! Bodies that look like what a reading reads: a root with attributes and children
//! of a few names, map entries with keys and values in any order and number, texts
//! with and without references; some with one fault. Those of `referring` have many
//! references, good, lax and bad, in one value.

use crate::random::Random;
use crate::reader::Kind;
use crate::texts::{BAD, GOOD, LAX};

const NAMES: [&str; 7] = ["a", "b", "c", "n", "p:a", "member", "x"];
const TEXTS: [&str; 10] = [
    "", "1", "larch", "true", "-5", "a &lt; b", "&#181;m", "x y", " ", "\u{e9}",
];
const FAULTY: [&str; 9] = [
    "&zz;",
    "&#+65;",
    "&",
    "<b>",
    "</b>",
    "]]>",
    "<!--",
    "<![CDATA[7]]>",
    "<",
];

/// What is no text, and so has no reference.
const NO_TEXTS: [&str; 4] = ["<!--&zz;-->", "<![CDATA[&zz;]]>", "<?p &zz;?>", "<!--c-->"];

struct Writer<'r> {
    text: String,
    random: &'r mut Random,
    /// Of a hundred texts, how many have a reference that fails; `None` for `TEXTS`.
    failing: Option<usize>,
}

impl Writer<'_> {
    fn one_of(&mut self, from: &[&str]) {
        self.text.push_str(self.random.pick(from));
    }

    fn attributes(&mut self) {
        // among references no two that may be alike: behind those no text is read strictly
        let most = if self.failing.is_some() { 1 } else { 3 };
        for _ in 0..most.min([0, 0, 0, 1, 1, 2, 3][self.random.below(7)]) {
            let name = self.random.pick(&["x", "y", "p:x", "xsi:type", "n"]);
            self.text += &format!(" {name}='");
            // fewer fail than texts do: behind one that fails no text is read
            self.value(self.failing.map(|percent| percent / 5));
            self.text.push('\'');
        }
    }

    /// An attribute's value or a text: right references, and in `failing` of a hundred one
    /// or two that fail among them; one of `TEXTS` where that is `None`.
    fn value(&mut self, failing: Option<usize>) {
        let Some(percent) = failing else {
            return self.one_of(&TEXTS);
        };
        self.right();
        if self.random.chance(percent) {
            for _ in 0..=self.random.below(2) {
                let lax = self.random.chance(50);
                self.one_of(if lax { &LAX } else { &BAD });
                self.right();
            }
        }
    }

    /// Up to three texts and references that are right.
    fn right(&mut self) {
        for _ in 0..self.random.below(4) {
            let good = self.random.chance(50);
            self.one_of(if good { &GOOD } else { &TEXTS });
        }
    }

    /// A text; among references also one behind what is no text, and one more behind that.
    fn content(&mut self) {
        let referring = self.failing.is_some();
        if referring && self.random.chance(15) {
            self.one_of(&NO_TEXTS);
        }
        self.value(self.failing);
        if referring && self.random.chance(15) {
            self.one_of(&NO_TEXTS);
            self.value(self.failing);
        }
    }

    fn element(&mut self, name: &str, inside: impl FnOnce(&mut Self)) {
        self.text += &format!("<{name}");
        self.attributes();
        if self.random.chance(8) {
            self.text.push_str("/>");
            return;
        }
        self.text.push('>');
        inside(self);
        self.text += &format!("</{name}>");
    }

    fn member(&mut self, levels: usize) {
        let name = self.random.pick(&NAMES);
        self.element(name, |writer| {
            if levels == 0 || writer.random.chance(60) {
                writer.content();
            } else {
                for _ in 0..writer.random.below(3) {
                    writer.member(levels - 1);
                }
            }
        });
    }

    fn entry(&mut self) {
        let name = self
            .random
            .pick(&["entry", "entry", "entry", "n", "p:entry"]);
        self.element(name, |writer| {
            for _ in 0..[1, 2, 2, 2, 2, 3][writer.random.below(6)] {
                let name = writer
                    .random
                    .pick(&["key", "value", "k", "v", "p:key", "x"]);
                writer.field(name, 15);
            }
        });
    }

    /// A key or a value, in `percent` of a hundred with elements inside.
    fn field(&mut self, name: &str, percent: usize) {
        self.element(name, |writer| {
            if writer.random.chance(percent) {
                writer.member(1);
            } else {
                writer.content();
            }
        });
    }

    /// A map entry with a key and a value, most of the time.
    fn pair(&mut self, key: &str, value: &str) {
        let name = self.random.pick(&["entry", "entry", "entry", "n"]);
        let fields: &[&str] = match self.random.below(20) {
            0..=12 => &[key, value],
            13..=14 => &[value, key],
            15 => &[key],
            16 => &[value],
            17 => &[key, value, key],
            18 => &[value, "x", key, value],
            _ => &["x", key, value],
        };
        self.element(name, |writer| {
            fields.iter().for_each(|name| writer.field(name, 2));
        });
    }
}

pub fn random(kind: Kind, random: &mut Random) -> Vec<u8> {
    rooted(random, None, |writer| {
        if kind == Kind::Map && writer.random.chance(85) {
            writer.entry();
        } else {
            writer.member(2);
        }
    })
}

/// A map whose entries have the same two fields, most of them.
pub fn pairs(random: &mut Random) -> Vec<u8> {
    let names = [("key", "value"), ("k", "v"), ("a", "b"), ("p:key", "value")];
    let (key, value) = names[random.below(names.len())];
    rooted(random, None, |writer| writer.pair(key, value))
}

/// A body for a reading, or a root around texts: its values have references good, lax and
/// bad beside one another, and so has what is no text.
pub fn referring(kind: Option<Kind>, random: &mut Random) -> Vec<u8> {
    let failing = [5, 15, 30, 60][random.below(4)];
    rooted(random, Some(failing), |writer| match kind {
        Some(Kind::Map) => writer.pair("key", "value"),
        Some(_) => {
            let levels = usize::from(writer.random.chance(20));
            writer.member(levels);
        }
        None => writer.content(),
    })
}

/// A root with some children, and at times one fault.
fn rooted(random: &mut Random, failing: Option<usize>, child: impl Fn(&mut Writer<'_>)) -> Vec<u8> {
    let mut writer = Writer {
        text: String::new(),
        random,
        failing,
    };
    let root = writer.random.pick(&["r", "r", "r", "p:r", "n"]);
    writer.element(root, |writer| {
        for _ in 0..[0, 1, 2, 3, 4, 6, 10][writer.random.below(7)] {
            child(writer);
            if writer.random.chance(20) {
                writer.one_of(&["\n ", "<!--c-->", "t"]);
            }
        }
    });
    let Writer {
        mut text, random, ..
    } = writer;
    // a fault may stand before the reference that fails
    let percent = if failing.is_some() { 10 } else { 30 };
    if random.chance(percent) {
        let places: Vec<usize> = text.match_indices('>').map(|(at, _)| at + 1).collect();
        text.insert_str(places[random.below(places.len())], random.pick(&FAULTY));
    }
    text.into_bytes()
}
