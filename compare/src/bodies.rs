//! Bodies to ask about, as oracle/py/gen.py has them: well-formed, with trouble of
//! every kind, damaged, deep, soups of snippets, and some that are not UTF-8.

use crate::random::Random;
use crate::texts::{BAD, GOOD, LAX, NOT_UTF8};

const LOCALS: [&str; 12] = [
    "a", "b", "c", "n", "r", "key", "value", "entry", "member", "type", "x", "é",
];
const PREFIXES: [&str; 3] = ["p", "q", "xsi"];
const PLAIN: [&str; 18] = [
    "1", "7", "true", "x y", "-5", " ", "\n", "\t\r\n", "abc", "é", "€", "🌲", ";", "'", ">", "=",
    "/", "]]",
];
const TOKEN_BREAKERS: [&str; 6] = ["]]>", "\x01", "\0", "\u{FFFE}", "\x0b", "\x7f"];
const MISC: [&str; 5] = [
    "<!-- c -->",
    "<!---->",
    "<?pi?>",
    "<?pi some data?>",
    "<!--<a>&zz;-->",
];
const DECLARATIONS: [&str; 5] = [
    "<?xml version='1.0'?>",
    "<?xml version=\"1.0\" encoding=\"UTF-8\"?>",
    "<?xml version='1.0' standalone='yes'?>",
    "<?xml version='2.0'?>",
    "<?xml ?>",
];
const DOCTYPES: [&str; 7] = [
    "<!DOCTYPE r>",
    "<!DOCTYPE r [<!ENTITY zz 'y'>]>",
    "<!DOCTYPE r SYSTEM 'x'>",
    "<!DOCTYPE r [ <!ELEMENT r ANY> <!-- c --> ] >",
    "<!DOCTYPE r [<!ATTLIST r x>",
    "<!DOCTYPE",
    "<!DOCTYPE r PUBLIC 'a' 'b' []>",
];
const EPILOGS: [&str; 10] = [
    " ",
    "\n",
    "<!-- end -->",
    "<?pi?> ",
    "<a/>",
    "x",
    "&lt;",
    "</r>",
    "  \n ",
    "<",
];
const SNIPPETS: [&[u8]; 68] = [
    b"<a>",
    b"</a>",
    b"<b>",
    b"</b>",
    b"<c/>",
    b"<r>",
    b"</r>",
    b"<p:a>",
    b"</p:a>",
    b"<n>",
    b"</n>",
    b"<n/>",
    b"<",
    b">",
    b"/>",
    b"</",
    b"<a x='1'>",
    b"<b x='1' x='2'>",
    b"<b x='1' p:x='2'>",
    b"<c y='&zz;'>",
    b"<a y='&#0;'/>",
    b" x='1'",
    b" y=\"\"",
    b"<!-- c -->",
    b"<!---->",
    b"<!-- -- -->",
    b"<!--",
    b"-->",
    b"<![CDATA[",
    b"]]>",
    b"<![CDATA[x]]>",
    b"<?pi?>",
    b"<?pi d?>",
    b"<?xml ",
    b"<?xml version='1.0'?>",
    b"?>",
    b"<!DOCTYPE a>",
    b"<!DOCTYPE a [",
    b"]>",
    b"<!ENTITY z 'y'>",
    b"<!ELEMENT a ANY>",
    b"x",
    b"1",
    b" ",
    b"\n",
    b"&lt;",
    b"&zz;",
    b"&#0;",
    b"'",
    b"\"",
    b"=",
    b"a",
    b":",
    b"\xEF\xBB\xBF",
    b"\xFF",
    b"\xC3",
    b"\xC3\xA9",
    b"<\xC3\xA9>",
    b"<:a>",
    b"</:a>",
    b"<a:>",
    b"<a:b:c>",
    b"<a >",
    b"</a >",
    b"< a>",
    b"<a\t/>",
    b"<1>",
    b"<a:b>",
];

/// One body. Most have some hundred bytes.
pub fn random(random: &mut Random) -> Vec<u8> {
    match random.below(1_000) {
        0..=9 => return Vec::new(),
        10..=99 => return soup(random),
        100..=114 => return deep(random),
        _ => {}
    }
    let trouble = [0, 0, 0, 30, 100, 300][random.below(6)];
    let mut text = String::new();
    prolog(&mut text, random);
    let levels = [0, 1, 1, 1, 2, 2, 3][random.below(7)];
    let mut writer = Writer {
        text,
        random,
        trouble,
    };
    writer.element(levels);
    let Writer { mut text, .. } = writer;
    if random.chance(25) {
        text.push_str(random.pick(&EPILOGS));
    }
    let mut body = text.into_bytes();
    if random.chance(25) {
        damage(&mut body, random);
    }
    if random.chance(2) {
        let at = random.below(body.len() + 1);
        body.splice(at..at, random.pick(&NOT_UTF8).iter().copied());
    }
    body
}

fn prolog(text: &mut String, random: &mut Random) {
    let parts: [(usize, &[&str]); 5] = [
        (5, &["\u{FEFF}"]),
        (15, &DECLARATIONS),
        (10, &[" ", "\n", "\t"]),
        (6, &DOCTYPES),
        (10, &MISC),
    ];
    for (percent, from) in parts {
        if random.chance(percent) {
            text.push_str(random.pick(from));
        }
    }
}

/// Writes an element with what it holds.
struct Writer<'r> {
    text: String,
    random: &'r mut Random,
    /// How often something is wrong, in a thousand.
    trouble: usize,
}

impl Writer<'_> {
    fn one_of(&mut self, from: &[&str]) {
        self.text.push_str(self.random.pick(from));
    }

    /// In `parts` of a hundred of the cases of trouble.
    fn goes_wrong(&mut self, parts: usize) -> bool {
        self.random.below(100_000) < self.trouble * parts
    }

    fn element(&mut self, levels: usize) {
        let tag = name(self.random);
        self.text.push('<');
        self.text.push_str(&tag);
        if self.random.chance(30) {
            for _ in 0..[1, 1, 2, 3][self.random.below(4)] {
                self.attribute();
            }
        }
        if self.random.chance(10) {
            return self.one_of(&["/>", " />"]);
        }
        self.one_of(&[">", ">", ">", " >"]);
        self.content(levels);
        let other = self.goes_wrong(30);
        let close = if other { name(self.random) } else { tag };
        if !self.goes_wrong(15) {
            self.text.push_str("</");
            self.text.push_str(&close);
            self.one_of(&[">", ">", ">", " >"]);
        }
    }

    fn content(&mut self, levels: usize) {
        if levels == 0 || self.random.chance(35) {
            if self.random.chance(85) {
                self.text(None);
            }
            if self.random.chance(15) {
                self.one_of(&["<![CDATA[c<&d]]>", "<![CDATA[]]>", MISC[0], MISC[4]]);
            }
            return;
        }
        for _ in 0..[0, 1, 1, 2, 2, 3, 4, 6][self.random.below(8)] {
            match self.random.below(100) {
                0..=74 => self.element(levels - 1),
                75..=89 => self.text(None),
                90..=94 => self.text.push_str("<![CDATA[c]]>"),
                _ => self.one_of(&MISC),
            }
        }
    }

    fn attribute(&mut self) {
        self.one_of(&[" ", " ", "\n", "  "]);
        let name = name(self.random);
        self.text.push_str(&name);
        self.one_of(&["=", "=", "=", " = ", "\n=", "= "]);
        let quote = self.random.pick(&["\"", "'"]);
        self.text.push_str(quote);
        if self.random.chance(80) {
            self.text(Some(quote));
        }
        self.text.push_str(quote);
    }

    /// Text, or a value between two of `quote`.
    fn text(&mut self, quote: Option<&str>) {
        for _ in 0..[1, 1, 1, 2, 3][self.random.below(5)] {
            if self.random.chance(70) {
                let plain = self.random.pick(&PLAIN);
                if Some(plain) != quote {
                    self.text.push_str(plain);
                }
            } else if self.goes_wrong(60) {
                self.one_of(&TOKEN_BREAKERS);
            } else if self.goes_wrong(100) {
                self.one_of(&BAD);
            } else if self.goes_wrong(50) {
                self.one_of(&LAX);
            } else {
                self.one_of(&GOOD);
            }
        }
    }
}

fn name(random: &mut Random) -> String {
    let local = random.pick(&LOCALS);
    match random.below(100) {
        0..=19 => format!("{}:{local}", random.pick(&PREFIXES)),
        20 => format!(":{local}"),
        _ => local.to_string(),
    }
}

fn soup(random: &mut Random) -> Vec<u8> {
    let count = [0, 1, 2, 3, 4, 5, 6, 8, 12, 20][random.below(10)];
    (0..count)
        .flat_map(|_| random.pick(&SNIPPETS).iter().copied())
        .collect()
}

/// Elements in one another, up to past the most that may be open.
fn deep(random: &mut Random) -> Vec<u8> {
    let tag = random.pick(&["a", "n", "p:a"]);
    let levels = [3, 10, 50, 127, 200, 255, 256, 257, 300][random.below(9)];
    let inside = random.pick(&["", "1", "<b/>", "<b>1</b>"]);
    let closed = [levels, levels, levels, levels - 1, levels / 2, 0][random.below(6)];
    nested(tag, levels, inside, closed)
}

/// `levels` start tags, what is inside, and `closed` end tags.
pub fn nested(tag: &str, levels: usize, inside: &str, closed: usize) -> Vec<u8> {
    let open = format!("<{tag}>").repeat(levels);
    let close = format!("</{tag}>").repeat(closed);
    [open.as_str(), inside, &close].concat().into_bytes()
}

/// One start tag with this many attributes, ended by `/>`. The last has the name of
/// the first behind `last`: a prefix, or nothing, and then it repeats it.
pub fn start_tag(attributes: usize, last: &str) -> String {
    let mut body = "<r".to_string();
    for number in 1..attributes {
        body += &format!(" {}=''", short_name(number));
    }
    body + &format!(" {last}{}=''/>", short_name(1))
}

/// A name of its own for each number that is not 0.
pub fn short_name(number: usize) -> String {
    let mut left = number;
    let mut name = String::new();
    while left > 0 {
        name.push(char::from(b'a' + (left % 26) as u8));
        left /= 26;
    }
    name
}

const LETTERS: &[u8] = b"abcdefghijklmnopqrstuvwxyzABCDEFGHIJKLMNOPQRSTUVWXYZ0123456789";

/// A name with a byte for each base, one of so many letters: the digits of the number, the
/// last of them counting on first.
pub fn numbered_name(bases: &[usize], number: usize) -> String {
    let mut left = number;
    let last_first = bases.iter().rev().map(|base| {
        let digit = left % base;
        left /= base;
        char::from(LETTERS[digit])
    });
    let name: Vec<char> = last_first.collect();
    name.into_iter().rev().collect()
}

/// So many of these names, in their order.
pub fn names(count: usize, bases: &[usize]) -> Vec<String> {
    let numbers = 0..count;
    numbers.map(|number| numbered_name(bases, number)).collect()
}

/// The same in an order that looks random: at which byte two names differ cannot be told
/// from the two before them, which makes comparing them dear.
pub fn mixed_names(count: usize, bases: &[usize]) -> Vec<String> {
    let mut names = names(count, bases);
    Random::new(7).shuffle(&mut names);
    names
}

/// Attributes of these names, without values.
pub fn attributes(names: &[String]) -> String {
    names.iter().map(|name| format!(" {name}=''")).collect()
}

/// One start tag with these attributes.
pub fn tag_of(names: &[String]) -> Vec<u8> {
    format!("<r{}/>", attributes(names)).into_bytes()
}

/// Cuts, deletes, changes, inserts or doubles, once to three times.
pub fn damage(body: &mut Vec<u8>, random: &mut Random) {
    for _ in 0..[1, 1, 1, 2, 3][random.below(5)] {
        if body.is_empty() {
            return;
        }
        let at = random.below(body.len());
        let end = body.len().min(at + [1, 1, 2, 5][random.below(4)]);
        match random.below(20) {
            0..=3 => body.truncate(at),
            4..=7 => drop(body.drain(at..end)),
            8..=9 => body[at] = random.below(256) as u8,
            10..=14 => drop(body.splice(at..at, random.pick(&SNIPPETS).iter().copied())),
            15..=16 => {
                let end = body.len().min(at + random.below(30));
                let again = body[at..end].to_vec();
                body.splice(at..at, again);
            }
            17..=18 => body[at] = b"<>/&;='\" :abrn!?-[]\xC3"[random.below(20)],
            _ => drop(body.drain(..at)),
        }
    }
}
