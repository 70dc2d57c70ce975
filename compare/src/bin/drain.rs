//! Asks the static library, the Rust and document 01's rules about token tables and
//! compares every answer of the drain: number, row and cause. The place of a bad
//! reference, which the Rust does not tell, stands beside the rules', of every table.
//!
//!     drain [--full] [--seed S]
//!
//! First tables of bodies, beside the Rust; then tables that no tokenizer made,
//! beside the rules (src/rules.rs). At the end stand the counts of places; too few are a
//! group that failed. The last line is `N passed, M failed`, counted in groups; the
//! status is 1 where one failed.

use compare::bodies::{self, nested, start_tag};
use compare::drains::{shown, Counts, Drainer};
use compare::lent::{self, Made};
use compare::named;
use compare::random::Random;
use compare::reader::Kind;
use compare::rules::{self, Lent, Rule, RULES};
use compare::shaped;
use compare::tally::{finish, Tally};
use compare::texts;
use oracle::hex::hex;

/// Bodies in rows of these: tags that match and do not, tags cut short, text with
/// references, and what has a row of kind 7.
const SNIPPETS: [&str; 18] = [
    "<a>",
    "</a>",
    "<b x='1'>",
    "</b>",
    "<c/>",
    "<p:a>",
    "</p:a>",
    " x='2'",
    "<a",
    ">",
    "/>",
    "t",
    "&lt;",
    "&zz;",
    "<!---->",
    "<![CDATA[<]]>",
    " ",
    "<",
];

/// The same for one start tag and its attributes.
const ATTRIBUTES: [&str; 12] = [
    " x='1'",
    " x=\"2\"",
    " y=''",
    " p:x='1'",
    " q:x='1'",
    " :x=''",
    " z='&lt;'",
    " z='&'",
    ">",
    "/>",
    "</a>",
    "t",
];

/// How much of each group is asked.
struct Size {
    bodies: u64,
    snippets: usize,
    attributes: usize,
    /// Bodies whose tables are changed in every way.
    changed: usize,
    lent: u64,
}

const SHORTER: Size = Size {
    bodies: 300_000,
    snippets: 4,
    attributes: 5,
    changed: 200,
    lent: 300_000,
};

const FULL: Size = Size {
    bodies: 2_000_000,
    snippets: 5,
    attributes: 6,
    changed: 2_000,
    lent: 2_000_000,
};

/// The most bytes of a body whose table is changed in every way, and of one whose
/// table is changed at random.
const SHORT: usize = 120;
const LONG: usize = 400;

struct Group {
    tally: Tally,
    drainer: Drainer,
    of_bodies: bool,
}

impl Group {
    fn of_bodies(name: impl Into<String>) -> Self {
        Group {
            tally: Tally::new(name, "bodies"),
            drainer: Drainer::default(),
            of_bodies: true,
        }
    }

    fn of_tables(name: impl Into<String>) -> Self {
        Group {
            tally: Tally::new(name, "tables"),
            drainer: Drainer::default(),
            of_bodies: false,
        }
    }

    fn body(&mut self, body: &[u8]) {
        let problem = self.drainer.beside_rust(body);
        self.tally.count(problem, || hex(body));
    }

    fn lent(&mut self, lent: Lent<'_>) {
        let problem = self.drainer.beside_rules(lent);
        self.tally.count(problem, || shown(lent));
    }

    fn end(self) -> Ended {
        let counts = self.drainer.counts;
        Ended {
            alike: self.tally.end(&counts.shown()),
            of_bodies: self.of_bodies,
            counts,
        }
    }
}

/// A group that has ended: whether all was alike, and what was counted.
struct Ended {
    alike: bool,
    of_bodies: bool,
    counts: Counts,
}

/// The least places of bodies, and of each sort of them.
const LEAST: u64 = 200_000;
const LEAST_OF_A_SORT: u64 = 50_000;

/// Says how many places were compared, and whether they are enough.
fn sizes(ended: &[Ended]) -> bool {
    let mut sum = Counts::default();
    for group in ended.iter().filter(|group| group.of_bodies) {
        sum.merge(&group.counts);
    }
    println!("places: {} bodies; {}", sum.all(), sum.shown());
    let least_sort = sum.in_attributes.min(sum.in_texts).min(sum.behind);
    let enough = sum.in_attributes + sum.in_texts >= LEAST && least_sort >= LEAST_OF_A_SORT;
    if !enough {
        println!("TOO FEW: places: {LEAST} are wanted, and {LEAST_OF_A_SORT} of each sort");
    }
    enough
}

/// Bodies and their places, as a person reads them from change request 1: the rules are
/// held to these.
const BY_HAND: [(&str, usize); 7] = [
    ("<a>&#+65;&zz;</a>", 3),
    ("<a>&lt;&#+65;&zz;</a>", 7),
    ("<a x='1' y='&amp;&'/>", 17),
    ("<a><!--&--><![CDATA[&]]>é&</a>", 26),
    ("<a>&zz;&</b>", 3),
    ("<a></b>&zz;", 0),
    ("<a x='' x='&'/>", 0),
];

fn by_hand() -> Ended {
    let mut group = Group::of_bodies("places by hand");
    for (body, wanted) in BY_HAND {
        group.body(body.as_bytes());
        let made = Made::of(body.as_bytes());
        let place = rules::place(made.lent(), rules::answer(made.lent()));
        let problem = (place != wanted).then(|| format!("the rules say {place}, not {wanted}"));
        group.tally.count(problem, || body.to_string());
    }
    group.end()
}

fn random_bodies(count: u64, seed: u64) -> Ended {
    let mut group = Group::of_bodies("random and damaged bodies");
    let mut random = Random::new(seed);
    for _ in 0..count {
        group.body(&bodies::random(&mut random));
    }
    group.end()
}

/// Bodies with many references, for any reading.
fn referring_bodies(count: u64, seed: u64) -> Ended {
    let mut group = Group::of_bodies("bodies with references good, lax and bad");
    let mut random = Random::new(seed ^ 0x26);
    for _ in 0..count {
        group.body(&a_referring_body(&mut random));
    }
    group.end()
}

fn a_referring_body(random: &mut Random) -> Vec<u8> {
    let kinds = Kind::ALL.map(Some).into_iter().chain([None]);
    let kind = kinds.cycle().nth(random.below(5)).flatten();
    shaped::referring(kind, random)
}

/// Every three references in one element: one in an attribute, and two in a text behind
/// what looks like bad ones and is no text.
fn every_three_references() -> Ended {
    let name = "every three references, one in an attribute and two in a text";
    let mut group = Group::of_bodies(name);
    for first in texts::references() {
        for second in texts::references() {
            for third in texts::references() {
                let start = format!("<a x=\"&gt;{first}\" y='&lt;'>");
                let text = format!("&#65;<![CDATA[&zz;]]><!--&-->µ{second}{third}");
                group.body(format!("{start}{text}</a>").as_bytes());
            }
        }
    }
    group.end()
}

/// Every body of `before` and up to `count` of the snippets.
fn every_body(before: &str, snippets: &[&str], count: usize) -> Ended {
    fn longer(group: &mut Group, body: &mut String, snippets: &[&str], left: usize) {
        group.body(body.as_bytes());
        for snippet in snippets.iter().filter(|_| left > 0) {
            body.push_str(snippet);
            longer(group, body, snippets, left - 1);
            body.truncate(body.len() - snippet.len());
        }
    }
    let name = format!(
        "every body of up to {count} of {} snippets behind `{before}`",
        snippets.len()
    );
    let mut group = Group::of_bodies(name);
    longer(&mut group, &mut before.to_string(), snippets, count);
    group.end()
}

/// Bodies at each limit, one before it and one past it.
fn limits_of_bodies() -> Ended {
    let mut group = Group::of_bodies("bodies at each limit and beside it");
    for levels in 254..=258 {
        for inside in ["", "<b/>", "<b></b>", "t", "&"] {
            for closed in [levels, levels - 1, 0] {
                group.body(&nested("a", levels, inside, closed));
            }
        }
    }
    for rows in 8_190..=8_195 {
        // a start, its `>` and an end tag, and a comment for each row that is left
        let comments = "<!---->".repeat(rows - 3);
        for tail in ["</a>", "</b>", "", "<"] {
            group.body(format!("<a>{comments}{tail}").as_bytes());
        }
        for last in ["p:", ""] {
            group.body(start_tag(rows - 2, last).as_bytes());
        }
    }
    for bytes in 65_534..=65_538 {
        for (before, behind) in [
            ("<a>", "</a>"),
            ("<a>", ""),
            ("<a>&", "</a>"),
            ("", "\u{1}"),
        ] {
            let text = "t".repeat(bytes - before.len() - behind.len());
            group.body(format!("{before}{text}{behind}").as_bytes());
        }
        group.body(&vec![0xFF; bytes]);
        group.body(&vec![b' '; bytes]);
    }
    group.end()
}

/// For each rule tables that break it alone, by name, and tables at a limit.
fn named_tables() -> Ended {
    let mut group = Group::of_tables("named tables, each breaking one rule or none");
    let mut seen: Vec<Rule> = Vec::new();
    for (name, rule, made) in named::named() {
        let problem = group.drainer.breaking(made.lent(), rule);
        let problem = problem.map(|problem| format!("{name}: {problem}"));
        // those at a limit of bytes or rows are too long to be shown
        group.tally.count(problem, || match made.numbers.len() {
            0..=200 if made.body.len() < 200 => shown(made.lent()),
            _ => "(a long table)".to_string(),
        });
        seen.extend(rule);
    }
    let unseen: Vec<&Rule> = RULES.iter().filter(|rule| !seen.contains(rule)).collect();
    let problem = (!unseen.is_empty()).then(|| format!("no table for {unseen:?}"));
    group.tally.count(problem, String::new);
    group.end()
}

/// Every single change of the tables of some bodies, and of `count` random ones.
fn every_change(count: usize, seed: u64) -> Ended {
    const BODIES: [&str; 12] = [
        "",
        "<a/>",
        "<a></a>",
        "<a><b></a></b>",
        "<p:a q:x='1' x=''>t</p:a>",
        "<a x='1' y='&lt;' x='2'/>",
        "<r>&amp;<a/>é<!--c--></r> ",
        "<?xml version='1.0'?><a>&zz;</a>",
        "<a><b><c/></b>t</a><!---->",
        "<a",
        "<a x='1'",
        "<a>]]></a>",
    ];
    let mut group = Group::of_tables("every change of one thing in a table");
    let mut random = Random::new(seed ^ 0xC4);
    let short = std::iter::from_fn(|| Some(bodies::random(&mut random)))
        .filter(|body| body.len() <= SHORT)
        .take(count);
    let bodies = BODIES.iter().map(|body| body.as_bytes().to_vec());
    for body in bodies.chain(short) {
        lent::every_change(&Made::of(&body), |made| group.lent(made.lent()));
    }
    group.end()
}

fn random_changes(count: u64, seed: u64) -> Ended {
    let mut group = Group::of_tables("tables of random bodies with one to three changes");
    let mut random = Random::new(seed ^ 0x1E);
    let mut asked = 0;
    while asked < count {
        let body = if random.chance(30) {
            a_referring_body(&mut random)
        } else {
            bodies::random(&mut random)
        };
        // the longest would take most of the time
        if body.len() > LONG {
            continue;
        }
        let made = Made::of(&body);
        for _ in 0..8 {
            group.lent(lent::changed(&made, &mut random).lent());
        }
        asked += 8;
    }
    group.end()
}

fn grown_tables(count: u64, seed: u64) -> Ended {
    let mut group = Group::of_tables("tables grown over bytes that are no document");
    let mut random = Random::new(seed ^ 0x6E);
    for _ in 0..count {
        let made = lent::grown(&mut random);
        group.lent(made.lent());
        group.lent(lent::changed(&made, &mut random).lent());
    }
    group.end()
}

/// The arguments, or what is wrong with them.
fn arguments() -> Option<(Size, u64)> {
    let (mut size, mut seed) = (SHORTER, 20_260_701);
    let mut words = std::env::args().skip(1);
    while let Some(word) = words.next() {
        match word.as_str() {
            "--full" => size = FULL,
            "--seed" => seed = words.next()?.parse().ok()?,
            _ => return None,
        }
    }
    Some((size, seed))
}

fn main() {
    let Some((size, seed)) = arguments() else {
        eprintln!("usage: drain [--full] [--seed S]");
        std::process::exit(2);
    };
    println!("seed {seed}, {} rules", RULES.len());
    let ended = [
        by_hand(),
        random_bodies(size.bodies, seed),
        referring_bodies(size.bodies / 3, seed),
        every_three_references(),
        every_body("", &SNIPPETS, size.snippets),
        every_body("<a>", &SNIPPETS, size.snippets),
        every_body("<a", &ATTRIBUTES, size.attributes),
        limits_of_bodies(),
        named_tables(),
        every_change(size.changed, seed),
        random_changes(size.lent, seed),
        grown_tables(size.lent, seed),
    ];
    let mut groups: Vec<bool> = ended.iter().map(|group| group.alike).collect();
    groups.push(sizes(&ended));
    finish(&groups);
}
