//! Times the readings beside the Rust's same readings of the same bodies, in one run,
//! and prints Markdown tables. Build it with `--profile speed`.
//!
//!     bench_readings [--strict | --lenient] [WORD...]
//!
//! Only one of the two manners, and only the lines whose names have one of the words
//! in them; of a word `=NAME`, the line of that name.
//!
//! What is timed, and what is compared before, says src/read_times.rs.

use compare::bodies::{attributes, nested, short_name, start_tag};
use compare::lent::Made;
use compare::random::Random;
use compare::read_times::Reading::{self, Boolean, BySheet, Find, Integer};
use compare::read_times::{times, Times};
use compare::reader::Kind;
use compare::sheets::{List, Map, Member, Structure};
use compare::timing::{heading, line, ratio_cells, TURNS};
use compare::uploads::{cores, filled, many_references, numeric, rowed, widths, LARGE, SMALL};

/// The ratio that a line is to reach.
const GOAL: f64 = 4.0;

/// A manner of reading: flags, how a line is named that is behind in it, and what stands
/// over its times where it is the second.
#[derive(Clone, Copy)]
struct Manner {
    flags: u32,
    behind: &'static str,
    column: &'static str,
}

/// The wrapper's default settings.
const STRICT: Manner = Manner {
    flags: 3,
    behind: "",
    column: "strict ns",
};
const LENIENT: Manner = Manner {
    flags: 0,
    behind: ", lenient",
    column: "lenient ns",
};

impl Manner {
    /// The same, with the names of items and map entries tested.
    fn with_names(&self) -> Self {
        Manner {
            flags: self.flags | 4,
            ..*self
        }
    }
}

/// Which lines are asked for, how they are read, and those that are behind.
struct Lines {
    words: Vec<String>,
    manners: Vec<Manner>,
    behind: Vec<String>,
}

impl Lines {
    /// The command line's.
    fn asked() -> Self {
        let mut words: Vec<String> = std::env::args().skip(1).collect();
        let manners = match words.first().map(String::as_str) {
            Some("--strict") => vec![STRICT],
            Some("--lenient") => vec![LENIENT],
            _ => vec![STRICT, LENIENT],
        };
        words.retain(|word| !word.starts_with("--"));
        Lines {
            words,
            manners,
            behind: Vec::new(),
        }
    }

    fn asks_for(&self, name: &str) -> bool {
        let asked = |word: &String| match word.strip_prefix('=') {
            Some(whole) => name == whole,
            None => name.contains(word),
        };
        self.words.is_empty() || self.words.iter().any(asked)
    }

    /// The head of a table whose lines are read in every manner.
    fn heading(&self, first: &str) {
        let mut beside = vec!["Rust ns", "ratio"];
        for manner in &self.manners[1..] {
            beside.extend([manner.column, "Rust ns", "ratio"]);
        }
        heading(first, &beside);
    }

    /// A line, read in every manner.
    fn add(&mut self, name: impl AsRef<str>, reading: &Reading, body: &[u8]) {
        let manners = self.manners.clone();
        self.add_in(&manners, name.as_ref(), reading, body);
    }

    /// A line of a collection whose children are asked for by their name.
    fn add_named(&mut self, name: impl AsRef<str>, reading: &Reading, body: &[u8]) {
        let manners: Vec<Manner> = self.manners.iter().map(Manner::with_names).collect();
        self.add_in(&manners, name.as_ref(), reading, body);
    }

    /// A line that is read in the first manner alone.
    fn add_once(&mut self, name: impl AsRef<str>, reading: &Reading, body: &[u8]) {
        let first = [self.manners[0]];
        self.add_in(&first, name.as_ref(), reading, body);
    }

    fn add_in(&mut self, manners: &[Manner], name: &str, reading: &Reading, body: &[u8]) {
        if !self.asks_for(name) {
            return;
        }
        let made = Made::of(body);
        let read = |manner: &Manner| times(name, reading, manner.flags, &made);
        let all: Vec<Times> = manners.iter().map(read).collect();
        let [ours, rust] = all[0];
        let mut cells = ratio_cells(rust, ours).to_vec();
        for [ours, rust] in &all[1..] {
            cells.push(format!("{ours:.0}"));
            cells.extend(ratio_cells(*rust, *ours));
        }
        line(name, body.len(), made.rows(), ours, &cells);
        for (manner, [ours, rust]) in manners.iter().zip(all) {
            if rust / ours < GOAL {
                let behind = format!("{name}{} ({:.2})", manner.behind, rust / ours);
                self.behind.push(behind);
            }
        }
    }
}

fn structure(root: &str, members: Vec<Member>) -> Reading {
    let sheet = Structure {
        shape_name: root.as_bytes().to_vec(),
        members,
        ..Structure::default()
    };
    BySheet(Kind::Struct, sheet.bytes())
}

fn scalar(name: &str) -> Member {
    Member {
        member_name: Some(name.as_bytes().to_vec()),
        ..Member::default()
    }
}

fn attribute(name: &str) -> Member {
    Member {
        attribute: true,
        ..scalar(name)
    }
}

fn piece(name: &str) -> Member {
    Member {
        aggregate: true,
        ..scalar(name)
    }
}

fn group(name: &str) -> Member {
    Member {
        flattened: true,
        ..piece(name)
    }
}

/// All children are items.
fn items(kind: Kind) -> Reading {
    let sheet = List {
        member: true,
        ..List::default()
    };
    BySheet(kind, sheet.bytes())
}

/// The children of this name are items.
fn items_named(kind: Kind, name: &str) -> Reading {
    let sheet = List {
        member: true,
        xml_name: Some(name.as_bytes().to_vec()),
        ..List::default()
    };
    BySheet(kind, sheet.bytes())
}

/// Keys and values that are texts.
fn pairs() -> Reading {
    let sheet = Map {
        has_value: true,
        ..Map::default()
    };
    BySheet(Kind::Map, sheet.bytes())
}

fn uploads(lines: &mut Lines) {
    for (size, decades, words) in [(SMALL, 2, "1 KB"), (LARGE, 9, "60 KB")] {
        let body = cores(size, decades);
        let groups = structure("r", vec![group("core")]);
        lines.add(
            format!("upload of {words}, flattened groups"),
            &groups,
            &body,
        );
        let pieces = structure("r", vec![piece("core")]);
        lines.add(format!("upload of {words}, pieces"), &pieces, &body);
    }
}

/// The twelve scalars of a core: two attributes and ten children.
const CORE: [(&str, &str); 12] = [
    ("id", "c17"),
    ("lab", "north"),
    ("species", "stone pine"),
    ("site", "Val Ferret"),
    ("slope", "31"),
    ("height", "1,960 m"),
    ("bark", "true"),
    ("pith", "false"),
    ("first", "1743"),
    ("last", "1998"),
    ("unit", "&#xB5;m"),
    ("note", "bark &amp; pith, cracked at the sapwood"),
];

fn structures(lines: &mut Lines) {
    let (attributes, children) = CORE.split_at(2);
    let tag: String = attributes
        .iter()
        .map(|(name, value)| format!(" {name}=\"{value}\""))
        .collect();
    let inside: String = children
        .iter()
        .map(|(name, value)| format!("\n <{name}>{value}</{name}>"))
        .collect();
    let members = attributes.iter().map(|(name, _)| attribute(name));
    let members = members.chain(children.iter().map(|(name, _)| scalar(name)));
    let reading = structure("core", members.collect());
    lines.add(
        "a core of 12 scalars",
        &reading,
        format!("<core{tag}>{inside}\n</core>").as_bytes(),
    );
    let members = (0..64).map(|number| scalar(&format!("width{number:02}")));
    let mut random = Random::new(7);
    let body = rowed(8_003, 4, |_| {
        let (name, width) = (random.below(64), random.between(120, 2_400));
        format!("<width{name:02}>{width}</width{name:02}>")
    });
    let reading = structure("r", members.collect());
    lines.add("64 members, 2,000 scalars", &reading, &body);
}

fn collections(lines: &mut Lines) {
    let rings = |size| {
        filled(size, |random, _| {
            format!("<rings>{}</rings>", widths(random))
        })
    };
    for (kind, name) in [(Kind::List, "list"), (Kind::Strings, "string list")] {
        for (size, words) in [(SMALL, "1 KB"), (LARGE, "60 KB")] {
            lines.add(format!("{name} of {words}"), &items(kind), &rings(size));
        }
    }
    let plain = |_: &mut Random, number| {
        format!(
            "<entry><key>core-{number:04}</key>\
             <value>larch from the north slope, bark and pith</value></entry>"
        )
    };
    let referring = |random: &mut Random, number| {
        format!(
            "<entry><key>core &#35;{number:04}</key><value>{} &lt; {} &#xB5;m &amp; bark</value></entry>",
            random.between(120, 2_400),
            random.between(120, 2_400)
        )
    };
    for (size, words) in [(SMALL, "1 KB"), (LARGE, "60 KB")] {
        lines.add(format!("map of {words}"), &pairs(), &filled(size, plain));
        lines.add(
            format!("map of {words} with references"),
            &pairs(),
            &filled(size, referring),
        );
    }
}

/// Collections whose children are asked for by their name: by the item name's two parts,
/// by its local name alone, and where no child has it.
fn named_items(lines: &mut Lines) {
    let rings = filled(LARGE, |random, _| {
        format!("<t:rings>{}</t:rings>", widths(random))
    });
    for (kind, name) in [(Kind::List, "list"), (Kind::Strings, "string list")] {
        let reading = items_named(kind, "t:rings");
        lines.add_named(format!("{name} of 60 KB, items t:rings"), &reading, &rings);
    }
    for (rows, child, other) in [
        (8_192, "t:ring", "t:core"),
        (6_003, "measurements:ring", "measurements:core"),
    ] {
        let body = rowed(rows, 2, |_| format!("<{child}/>"));
        for item in [child, "ring", other] {
            let reading = items_named(Kind::List, item);
            lines.add_named(format!("empty {child}, items {item}"), &reading, &body);
        }
    }
    let entries = rowed(8_192, 11, |number| {
        format!("<entry><key>c{number:04}</key><value>larch</value></entry>")
    });
    lines.add_named("map, entries named", &pairs(), &entries);
}

fn scalars(lines: &mut Lines) {
    lines.add("boolean", &Boolean, b"<dry>true</dry>");
    lines.add("integer", &Integer, b"<width>1234</width>");
    lines.add("string", &Reading::String, b"<note>bark and pith</note>");
    lines.add(
        "string with references",
        &Reading::String,
        b"<note>bark &amp; pith, 3 &lt; 4 &#xB5;m</note>",
    );
    let mut random = Random::new(7);
    let text: String = (0..1_400).map(|_| widths(&mut random) + " ").collect();
    let body = format!("<note>{}</note>", &text[..LARGE - 13]);
    lines.add("string of 60 KB", &Reading::String, body.as_bytes());
}

fn finds(lines: &mut Lines) {
    for (size, decades, words) in [(SMALL, 2, "1 KB"), (LARGE, 9, "60 KB")] {
        let mut body = cores(size, decades);
        body.truncate(body.len() - "</r>".len());
        body.extend_from_slice(b"<lab>north</lab></r>");
        let name = format!("find the first child of {words}");
        lines.add_once(name, &Find("core"), &body);
        let name = format!("find the last child of {words}");
        lines.add_once(name, &Find("lab"), &body);
    }
}

fn growth(lines: &mut Lines) {
    const ROWS: [usize; 4] = [1_024, 2_048, 4_096, 8_000];
    for rows in ROWS {
        let body = rowed(rows, 4, |number| format!("<ring>{number:04}</ring>"));
        lines.add_once(format!("list, {rows} rows"), &items(Kind::List), &body);
    }
    let members = (0..8).map(|number| group(&format!("ring{number}")));
    let groups = structure("r", members.collect());
    for rows in ROWS {
        let body = rowed(rows, 4, |number| {
            let name = number % 8;
            format!("<ring{name}>{number:04}</ring{name}>")
        });
        lines.add_once(format!("8 flattened groups, {rows} rows"), &groups, &body);
    }
    for rows in ROWS {
        let body = rowed(rows, 11, |number| {
            format!("<e><key>c{number:04}</key><value>larch</value></e>")
        });
        lines.add_once(format!("map, {rows} rows"), &pairs(), &body);
    }
}

fn many_attributes(lines: &mut Lines) {
    for (count, words) in [(1_022, "1,022"), (8_190, "8,190")] {
        let members = (count - 64..count).map(|number| attribute(&short_name(number)));
        let reading = structure("r", members.collect());
        let name = format!("{words} attributes, 64 asked for");
        lines.add(&name, &reading, start_tag(count, "p:").as_bytes());
    }
    let members = (0..64).map(|number| attribute(&late_name(255, number)));
    let reading = structure("r", members.collect());
    let name = "8,190 attributes, 64 long asked for";
    lines.add(name, &reading, start_tag(8_190, "p:").as_bytes());
    for (count, words, length) in [(5_000, "5,000", 8), (240, "240", 255)] {
        let names: Vec<String> = (0..count).map(|number| late_name(length, number)).collect();
        let tag = attributes(&names);
        let name = format!("{words} attributes of {length} bytes, differ late");
        lines.add(&name, &items(Kind::List), format!("<r{tag}/>").as_bytes());
    }
    let names: Vec<String> = (1..=64).map(short_name).collect();
    let tag = attributes(&names);
    let body = rowed(8_000, 66, |_| format!("<ring{tag}/>"));
    lines.add("64 attributes in each item", &items(Kind::List), &body);
}

/// Names of `length` bytes that differ in the last ones.
fn late_name(length: usize, number: usize) -> String {
    format!("r{number:0>width$}", width = length - 1)
}

fn many_members(lines: &mut Lines) {
    let names: Vec<String> = (0..64).map(|number| format!("m{number:02}")).collect();
    let groups = structure("r", names.iter().map(|name| group(name)).collect());
    let empty = rowed(8_192, 2, |number| format!("<{}/>", names[number * 37 % 64]));
    lines.add("64 groups, empty children mixed", &groups, &empty);
    let filled = rowed(8_192, 4, |number| {
        let name = &names[number * 37 % 64];
        format!("<{name}>{number:04}</{name}>")
    });
    lines.add("64 groups, children mixed", &groups, &filled);
    let last = rowed(8_192, 2, |_| format!("<{}/>", names[63]));
    lines.add("64 groups, all children of the last", &groups, &last);
}

/// Names that differ late, where no member has a child's name.
fn long_names(lines: &mut Lines) {
    for (count, words, length) in [(2_700, "2,700", 21), (250, "250", 255)] {
        let members = (0..64).map(|number| scalar(&late_name(length, number)));
        let reading = structure("r", members.collect());
        let body = rowed(3 + 2 * count, 2, |number| {
            format!("<{}/>", late_name(length, 64 + number % 36))
        });
        let name = format!("{words} children of {length} bytes, differ late");
        lines.add(&name, &reading, &body);
    }
    let name = late_name(30_000, 7);
    let body = format!("<r><{name}></{name}></r>");
    lines.add(
        "a name of 30,000 bytes, list",
        &items(Kind::List),
        body.as_bytes(),
    );
}

fn many_fields(lines: &mut Lines) {
    let fields = |count: usize| -> String {
        (0..count)
            .map(|number| {
                let name = ["key", "value"][number % 2];
                format!("<{name}>c{number:04}</{name}>")
            })
            .collect()
    };
    for (entries, count) in [("1 entry", 2_040), ("30 entries", 66), ("431 entries", 4)] {
        let inside = fields(count);
        let body = rowed(8_192, 3 + 4 * count, |_| format!("<entry>{inside}</entry>"));
        let name = format!("map, {entries} of {count} fields");
        lines.add(&name, &pairs(), &body);
    }
}

fn depth_and_small_rows(lines: &mut Lines) {
    let deep = nested("ring", 256, "7", 256);
    lines.add("256 deep, list", &items(Kind::List), &deep);
    lines.add(
        "256 deep, piece",
        &structure("ring", vec![piece("ring")]),
        &deep,
    );
    let empty = rowed(8_192, 2, |_| "<b/>".to_string());
    lines.add("4,094 empty items", &items(Kind::List), &empty);
    lines.add("4,094 empty strings", &items(Kind::Strings), &empty);
    let comments = rowed(8_192, 1, |_| "<!---->".to_string());
    lines.add("8,189 comments, list", &items(Kind::List), &comments);
    lines.add("no child, no member", &structure("r", Vec::new()), b"<r/>");
    let members = (0..64).map(|number| scalar(&late_name(9, number)));
    lines.add(
        "no child, 64 members",
        &structure("r", members.collect()),
        b"<r/>",
    );
    lines.add("no child, list", &items(Kind::List), b"<r/>");
}

fn references(lines: &mut Lines) {
    let texts = filled(LARGE, |random, _| {
        format!("<s>{}</s>", many_references(random, 40))
    });
    let strings = items(Kind::Strings);
    lines.add("string list full of references", &strings, &texts);
    let mut random = Random::new(7);
    let numbers: String = (0..7_500).map(|_| numeric(&mut random)).collect();
    for (name, text) in [
        ("string of numeric references", numbers),
        (
            "string of one reference, 60,000 zeros",
            format!("&#{}65;", "0".repeat(LARGE)),
        ),
    ] {
        let body = format!("<s>{text}</s>");
        lines.add(name, &Reading::String, body.as_bytes());
    }
    let values = filled(LARGE, |random, _| {
        format!("<s x='{}'/>", many_references(random, 40))
    });
    let name = "attributes full of references, list";
    lines.add(name, &items(Kind::List), &values);
}

fn main() {
    let mut lines = Lines::asked();
    println!(
        "Medians of {TURNS} turns; a ratio is the Rust's time by ours. Ours has the table at hand, the Rust tokenizes."
    );
    lines.heading("reading");
    uploads(&mut lines);
    structures(&mut lines);
    collections(&mut lines);
    scalars(&mut lines);
    lines.heading("by the names of items");
    named_items(&mut lines);
    heading("find, which is always lenient", &["Rust ns", "ratio"]);
    finds(&mut lines);
    heading("growth with rows", &["Rust ns", "ratio"]);
    growth(&mut lines);
    lines.heading("worst cases");
    many_attributes(&mut lines);
    many_members(&mut lines);
    long_names(&mut lines);
    many_fields(&mut lines);
    depth_and_small_rows(&mut lines);
    references(&mut lines);
    println!("\nBelow {GOAL}: {}.", lines.behind.join("; "));
}
