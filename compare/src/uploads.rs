//! Bodies for times: uploads as field teams send them, filled to a size, notes in other
//! scripts, and bodies that fill a table with as many rows as are asked for.

use crate::bodies::{mixed_names, nested, tag_of};
use crate::random::Random;
use crate::texts;

/// The bytes of small and of large bodies, about.
pub const SMALL: usize = 1_050;
pub const LARGE: usize = 60_000;

const SPECIES: [&str; 4] = ["larch", "stone pine", "spruce", "oak"];
pub const NAMED: [&str; 5] = ["&lt;", "&gt;", "&amp;", "&quot;", "&apos;"];
const NUMERIC: [&str; 3] = ["&#181;", "&#xB5;", "&#x1F332;"];

/// A body with its name.
pub type Named = (&'static str, Vec<u8>);

/// The large bodies of the drain.
pub fn drained() -> [Named; 4] {
    [
        ("an upload of cores", cores(LARGE, 9)),
        ("256 elements deep", nested("ring", 256, "7", 256)),
        ("8 attributes in each tag", filled(LARGE, many_attributes)),
        (
            "text full of references",
            filled(LARGE, |random, _| {
                format!("<note>{}</note>", many_references(random, 40))
            }),
        ),
    ]
}

/// The same, and more, for a check that other parsers make too.
pub fn checked() -> Vec<Named> {
    let sample = include_bytes!("../../samples/cores.xml");
    let mut bodies = vec![
        ("samples/cores.xml", sample.to_vec()),
        ("an upload of 1 KB", cores(SMALL, 2)),
    ];
    bodies.extend(drained());
    let languages = [GERMAN, RUSSIAN, JAPANESE];
    bodies.extend(languages.map(|language| (language.title, notes(&language))));
    bodies.push(("all names in Cyrillic", cyrillic()));
    bodies.push(("8,190 attributes in one tag", dearest()));
    bodies.into_iter().map(declared).collect()
}

const DECLARING: &[u8] = b"<r xmlns:t=\"urn:rings\">";

/// The same body with the prefix `t` declared, which some parsers want.
fn declared((name, body): Named) -> Named {
    match body.strip_prefix(b"<r>") {
        Some(rest) => (name, [DECLARING, rest].concat()),
        None => (name, body),
    }
}

/// A root element `r` with parts, as many as fit into `size` bytes. A part is told
/// its number, from 1.
pub fn filled(size: usize, part: impl FnMut(&mut Random, usize) -> String) -> Vec<u8> {
    filled_root("r", size, part)
}

/// The same with a root of another name.
fn filled_root(
    root: &str,
    size: usize,
    mut part: impl FnMut(&mut Random, usize) -> String,
) -> Vec<u8> {
    let mut random = Random::new(7);
    let mut body = format!("<{root}>");
    for number in 1.. {
        let next = part(&mut random, number);
        if body.len() + next.len() > size {
            break;
        }
        body += &next;
    }
    (body + &format!("</{root}>")).into_bytes()
}

/// A root element `r` with parts of `each` rows, as many as fit into `rows` rows.
pub fn rowed(rows: usize, each: usize, part: impl FnMut(usize) -> String) -> Vec<u8> {
    let parts: String = (0..(rows - 3) / each).map(part).collect();
    format!("<r>{parts}</r>").into_bytes()
}

/// An upload of cores with so many decades each.
pub fn cores(size: usize, decades: usize) -> Vec<u8> {
    filled(size, |random, number| core(random, number, decades))
}

/// A measured core: attributes, a note with a reference, and its ring widths by
/// decades. (With an element for each ring 8,192 rows are reached before 60 KB.)
fn core(random: &mut Random, number: usize, decades: usize) -> String {
    let species = random.pick(&SPECIES);
    let mut core = format!(
        "\n <t:core id=\"c{number}\" species=\"{species}\">\n  <note>bark &amp; pith</note>\n"
    );
    for decade in (190..).take(decades) {
        core += &format!(
            "  <rings from=\"{decade}0\" unit=\"&#xB5;m\">{}</rings>\n",
            widths(random)
        );
    }
    core + " </t:core>"
}

/// The widths of a decade.
pub fn widths(random: &mut Random) -> String {
    let widths: Vec<String> = (0..10)
        .map(|_| random.between(120, 2_400).to_string())
        .collect();
    widths.join(" ")
}

fn many_attributes(random: &mut Random, _: usize) -> String {
    let mut tag = "<ring".to_string();
    for name in [
        "year", "width", "unit", "early", "late", "scan", "by", "t:check",
    ] {
        tag += &format!(" {name}=\"{}\"", random.between(1, 2_000));
    }
    tag + "/>"
}

/// References and single letters, in turn.
pub fn many_references(random: &mut Random, count: usize) -> String {
    let from = [NAMED.as_slice(), &NUMERIC].concat();
    (0..count)
        .map(|_| format!("w{}", random.pick(&from)))
        .collect()
}

/// A reference by number.
pub fn numeric(random: &mut Random) -> String {
    let highest = [0x7E, 0x7FF, 0xD7FF][random.below(3)];
    let code = random.between(0x20, highest);
    texts::coded(code, random.below(3), "")
}

/// What a field team writes its notes with: words and sites, with blanks between them.
struct Language {
    title: &'static str,
    words: &'static str,
    sites: &'static str,
    /// What stands between two words of a note.
    gap: &'static str,
}

const GERMAN: Language = Language {
    title: "German notes",
    words: "Lärche am Südhang die Ringe schmäler als im Vorjahr Rinde ohne Mark größer gemessen",
    sites: "Lärchenegg Bärental Oberwald",
    gap: " ",
};

const RUSSIAN: Language = Language {
    title: "Russian notes",
    words: "лиственница на северном склоне кольца узкие и ровные кора цела без сердцевины",
    sites: "Черга Катунь Белокуриха",
    gap: " ",
};

const JAPANESE: Language = Language {
    title: "Japanese notes",
    words: "年輪 の 幅 は 狭い 樹皮 が 残る 北斜面 カラマツ 髄 なし 二回 測定 、 。",
    sites: "上高地 乗鞍岳 カラマツ沢",
    gap: "",
};

/// One of the words.
fn word<'l>(random: &mut Random, words: &'l str) -> &'l str {
    random.pick(&words.split(' ').collect::<Vec<_>>())
}

fn sentence(random: &mut Random, language: &Language, count: usize) -> String {
    let words: Vec<&str> = (0..count).map(|_| word(random, language.words)).collect();
    words.join(language.gap)
}

/// Notes in a language, with their sites as attributes.
fn notes(language: &Language) -> Vec<u8> {
    filled(LARGE, |random, number| {
        let site = word(random, language.sites);
        let text = sentence(random, language, 40);
        format!("\n <note id=\"n{number}\" site=\"{site}\">{text}</note>")
    })
}

/// Cores with short notes, where elements and attributes have Russian names too.
fn cyrillic() -> Vec<u8> {
    filled_root("выборка", LARGE, |random, number| {
        let site = word(random, RUSSIAN.sites);
        let note = sentence(random, &RUSSIAN, 6);
        format!(
            "\n <керн номер=\"{number}\" место=\"{site}\"><кора>цела</кора>\
             <кольца с=\"1910\">{}</кольца><заметка>{note}</заметка></керн>",
            widths(random)
        )
    })
}

/// The letters of the names in `dearest`: half of two names differ in the first byte, and
/// half of the others in the second.
pub const DEAREST: [usize; 4] = [2, 2, 46, 46];

/// The dearest body to drain that was found: one start tag with as many attributes as rows
/// and bytes allow, in an order that looks random.
pub fn dearest() -> Vec<u8> {
    tag_of(&mixed_names(8_190, &DEAREST))
}
