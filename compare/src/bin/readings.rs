//! Asks the static library, the Rust and a model of document 01 (src/reader.rs) for
//! readings, and compares number, count, every entry and every text byte, and that
//! nothing else is written. Places, which the Rust does not tell, stand beside the model's.
//!
//!     readings [--full] [--seed S]
//!
//! Tables of bodies beside the Rust and the model: random and damaged bodies, bodies with
//! many references, bodies cut at every byte, and every row of some snippets. Then less
//! room, tables that no tokenizer made and the whole text beside the model. At the end
//! stand the counts of each operation; one that is too low is a group that failed. The
//! last line is `N passed, M failed`, counted in groups; the status is 1 where one failed.

use compare::bodies;
use compare::counts::{Counts, Floor, Operation, Source, SCALARS};
use compare::derived;
use compare::drains::shown;
use compare::lent::{self, Made};
use compare::random::Random;
use compare::reader::{self, Asked, Kind};
use compare::readings::{enough, Asker, Outcome};
use compare::shaped;
use compare::sheets::{self, maybe_broken, names_in};
use compare::tally::{finish, Tally};
use compare::texts;
use oracle::hex::hex;

/// How much is asked.
struct Size {
    floor: Floor,
    /// Snippets in a row.
    snippets: usize,
    /// Bodies that are cut at every byte.
    cut: usize,
    /// Bodies with many references, for each reading by a sheet that tells places.
    referring: u64,
}

const SHORTER: Size = Size {
    floor: Floor {
        bodies: 100_000,
        scalars: 50_000,
        rooms: 30_000,
        lent: 50_000,
        places: 3_000,
        groups: 300,
    },
    snippets: 3,
    cut: 100,
    referring: 40_000,
};

const FULL: Size = Size {
    floor: Floor {
        bodies: 1_000_000,
        scalars: 300_000,
        rooms: 300_000,
        lent: 500_000,
        places: 30_000,
        groups: 3_000,
    },
    snippets: 4,
    cut: 2_000,
    referring: 400_000,
};

/// Children of a root in rows of these, with faults of each kind.
const SNIPPETS: [&str; 16] = [
    "<a>1</a>",
    "<b x='1'>&lt;</b>",
    "<a><b/></a>",
    "<entry><key>k</key><value>v</value></entry>",
    "<entry><value><a/></value><key/></entry>",
    "<p:a x='&zz;'>t</p:a>",
    "<n/>",
    "<key>&#+65;</key>",
    "<value>",
    "</value>",
    "</a>",
    "t",
    "<![CDATA[c]]>",
    "<b x='1' x='2'/>",
    "</r>",
    "<",
];

/// The longest body whose table is changed, and the most bytes that a scalar's body is
/// cut to.
const LONG: usize = 400;

/// Questions for each that the Rust is to be asked. (A body is some; of the readings by
/// a sheet about every second can be put to the Rust, which has no names but UTF-8.)
const MOST: u64 = 20;

/// The rest of a question, drawn for a table.
struct Question {
    sheet: Vec<u8>,
    /// Whether the sheet was made with the body's names.
    derived: bool,
    flags: u32,
    max_depth: u32,
    depth: u32,
}

impl Question {
    fn random(kind: Kind, made: &Made, random: &mut Random) -> Self {
        let (sheet, derived) = a_sheet(kind, made, random);
        // other bits are passed over
        let flags = random.below(8) as u32 | [0, 0, 0, 0xFFFF_FFF8][random.below(4)];
        let depths = [0, 0, 0, 0, 0, 0, 0, 0, 1, 1, 1, 1, 127, 127, 128, u32::MAX];
        Question {
            sheet: maybe_broken(sheet, random),
            derived,
            flags,
            max_depth: match random.below(16) {
                13 => 1,
                14 => 0,
                15 => u32::MAX,
                _ => 128,
            },
            depth: depths[random.below(16)],
        }
    }

    /// The same, not refused for its depth.
    fn entered(kind: Kind, made: &Made, random: &mut Random) -> Self {
        let question = Question::random(kind, made, random);
        Question {
            max_depth: 128,
            depth: question.depth % 2,
            ..question
        }
    }

    fn plain(sheet: &[u8], flags: u32) -> Self {
        Question {
            sheet: sheet.to_vec(),
            derived: false,
            flags,
            max_depth: 128,
            depth: 0,
        }
    }

    fn asked(&self) -> Asked<'_> {
        Asked {
            sheet: &self.sheet,
            flags: self.flags,
            max_depth: self.max_depth,
            depth: self.depth,
        }
    }

    fn shown(&self, made: &Made) -> String {
        let Question {
            sheet,
            flags,
            max_depth,
            depth,
            ..
        } = self;
        format!(
            "sheet {} flags {flags} maximum {max_depth} depth {depth} {}",
            hex(sheet),
            shown(made.lent())
        )
    }
}

struct Group {
    tally: Tally,
    asker: Asker,
    source: Source,
    counts: Counts,
}

impl Group {
    fn new(name: impl Into<String>, source: Source) -> Self {
        Group {
            tally: Tally::new(name, "questions"),
            asker: Asker::default(),
            source,
            counts: Counts::default(),
        }
    }

    fn count(
        &mut self,
        operation: Operation,
        outcome: Outcome,
        derived: bool,
        shown: impl FnOnce() -> String,
    ) {
        if let Ok(compared) = outcome {
            self.counts.add(operation, self.source, compared, derived);
        }
        let problem = outcome.err();
        self.tally.count(
            problem.map(|problem| format!("{operation:?} {problem}")),
            shown,
        );
    }

    fn reading(&mut self, kind: Kind, made: &Made, question: &Question, tokens: bool) {
        let outcome = self
            .asker
            .reading(kind, made.lent(), question.asked(), tokens);
        self.count(kind.into(), outcome, question.derived, || {
            question.shown(made)
        });
    }

    /// Scalars, find and the whole text.
    fn others(&mut self, made: &Made, question: &Question, random: &mut Random, tokens: bool) {
        let lent = made.lent();
        let scalars = self
            .asker
            .scalars(lent, question.flags, question.depth, tokens);
        for (operation, outcome) in SCALARS.into_iter().zip(scalars) {
            self.count(operation, outcome, false, || question.shown(made));
        }
        let names = names_in(&made.body, &made.numbers);
        let name = if names.is_empty() || random.chance(20) {
            b"a".as_slice()
        } else {
            random.pick(&names)
        };
        let outcome = self.asker.find(lent, name, tokens);
        self.count(Operation::Find, outcome, false, || {
            format!("name {} {}", hex(name), shown(lent))
        });
        let outcome = self.asker.whole_text(lent);
        self.count(Operation::WholeText, outcome, false, || shown(lent));
    }

    /// The reading by a sheet, or where there is none the others.
    fn of_kind(
        &mut self,
        kind: Option<Kind>,
        made: &Made,
        question: &Question,
        random: &mut Random,
    ) {
        match kind {
            Some(kind) => self.reading(kind, made, question, true),
            None => self.others(made, question, random, true),
        }
    }

    /// Every operation once.
    fn all(&mut self, body: &[u8], random: &mut Random) {
        let made = Made::of(body);
        for kind in Kind::ALL {
            let question = Question::entered(kind, &made, random);
            self.reading(kind, &made, &question, true);
        }
        let question = Question::random(Kind::List, &made, random);
        self.others(&made, &question, random, true);
    }

    /// Whether the Rust was asked less than `count` times for one of the operations. One
    /// that always differs ends too.
    fn is_short(&self, operations: &[Operation], count: u64) -> bool {
        let asked = |operation: &Operation| self.counts.of(*operation).beside_rust();
        self.tally.asked < MOST * count && operations.iter().any(|one| asked(one) < count)
    }

    fn end(self, ended: &mut Ended) {
        let alike = self.tally.end(&self.counts.remark());
        ended.groups.push(alike);
        ended.counts.merge(&self.counts);
    }
}

/// The groups that have ended: whether all was alike in each, and what they counted.
#[derive(Default)]
struct Ended {
    groups: Vec<bool>,
    counts: Counts,
}

impl Ended {
    /// Says what was compared, as a group of its own.
    fn sizes(&mut self, floor: &Floor) {
        self.counts.show();
        let missed = floor.missed(&self.counts);
        for missed in &missed {
            println!("TOO FEW: {missed}");
        }
        self.groups.push(missed.is_empty());
    }
}

/// A sheet and whether it was made with the body's names: one that fits the body, one
/// with names from all over it, or one without regard to it.
fn a_sheet(kind: Kind, made: &Made, random: &mut Random) -> (Vec<u8>, bool) {
    let way = random.below(10);
    if way < 5 {
        if let Some(sheet) = derived::sheet(kind, &made.body, &made.numbers, random) {
            return (sheet, true);
        }
    }
    let names = match way {
        0..=7 => names_in(&made.body, &made.numbers),
        _ => Vec::new(),
    };
    (sheets::random(kind, random, &names), !names.is_empty())
}

/// One that looks like what is read, or any.
fn a_body(kind: Kind, random: &mut Random) -> Vec<u8> {
    match random.below(100) {
        0..=49 if kind == Kind::Map => shaped::pairs(random),
        0..=64 => shaped::random(kind, random),
        _ => bodies::random(random),
    }
}

/// The same, or one with many references.
fn any_body(kind: Kind, random: &mut Random) -> Vec<u8> {
    if random.chance(30) {
        shaped::referring(Some(kind), random)
    } else {
        a_body(kind, random)
    }
}

/// A root around a scalar, or any.
fn a_scalar_body(random: &mut Random) -> Vec<u8> {
    if random.chance(50) {
        return bodies::random(random);
    }
    let text = scalar_text(random);
    let end = random.pick(&[
        "</r>",
        "</r>",
        "</r>",
        "</s>",
        "",
        "</r> ",
        "<b/></r>",
        "<!--c--></r>",
    ]);
    let start = random.pick(&[
        "<r>",
        "<r>",
        "<p:r x='1'>",
        "<r><!--c-->",
        "<r><![CDATA[1]]>",
    ]);
    [start.as_bytes(), &text, end.as_bytes()].concat()
}

/// Asks about bodies as they are drawn, then about bodies that are damaged once more,
/// each time until the Rust was asked half of `count` times for each of `operations`.
fn in_two_rounds(
    name: &str,
    operations: &[Operation],
    count: u64,
    seed: u64,
    ended: &mut Ended,
    draw: impl Fn(&mut Random) -> Vec<u8>,
    ask: impl Fn(&mut Group, &Made, &mut Random),
) {
    for (source, what) in [(Source::Random, "random"), (Source::Damaged, "damaged")] {
        let mut group = Group::new(format!("{name}: {what} bodies"), source);
        let mut random = Random::new(seed ^ (source as u64) << 8);
        while group.is_short(operations, count.div_ceil(2)) {
            let mut body = draw(&mut random);
            if source == Source::Damaged {
                bodies::damage(&mut body, &mut random);
            }
            ask(&mut group, &Made::of(&body), &mut random);
        }
        group.end(ended);
    }
}

fn random_bodies(kind: Kind, count: u64, seed: u64, ended: &mut Ended) {
    in_two_rounds(
        &format!("{kind:?}"),
        &[kind.into()],
        count,
        seed ^ kind as u64,
        ended,
        |random| a_body(kind, random),
        |group, made, random| {
            let question = Question::random(kind, made, random);
            group.reading(kind, made, &question, true);
        },
    );
}

fn scalars_and_find(count: u64, seed: u64, ended: &mut Ended) {
    in_two_rounds(
        "booleans, integers, strings, find and whole text",
        &[Operation::Boolean, Operation::Find],
        count,
        seed ^ 0x5C,
        ended,
        a_scalar_body,
        |group, made, random| {
            let question = Question::random(Kind::List, made, random);
            group.others(made, &question, random, true);
        },
    );
}

/// A reading by a sheet or the scalars, a body, and its places, lenient and strict, as a
/// person reads them from change request 1. A structure's is in its first entry.
struct ByHand {
    kind: Option<Kind>,
    sheet: &'static [u8],
    body: &'static str,
    places: [usize; 2],
}

/// The model is held to these.
const BY_HAND: [ByHand; 4] = [
    ByHand {
        kind: Some(Kind::Struct),
        sheet: b"\0\x01r\x02\x02\x01a\x02\x01b",
        body: "<r><a>&lt;&#0;&</a><b><c/></b></r>",
        places: [14, 10],
    },
    ByHand {
        kind: Some(Kind::Map),
        sheet: b"\x04",
        body: "<m><entry><key>k</key><value>&amp;&#+65;&zz;</value></entry></m>",
        places: [40, 34],
    },
    ByHand {
        kind: Some(Kind::Strings),
        sheet: b"\0",
        body: "<l><i>&lt;</i><i>&#+65;&zz;</i></l>",
        places: [23, 17],
    },
    ByHand {
        kind: None,
        sheet: b"",
        body: "<s>é&#x+41;&zz</s>",
        places: [12, 5],
    },
];

fn by_hand(seed: u64, ended: &mut Ended) {
    let mut group = Group::new("places by hand", Source::Referring);
    let mut random = Random::new(seed);
    for case in BY_HAND {
        let made = Made::of(case.body.as_bytes());
        for (flags, wanted) in (0..).zip(case.places) {
            let question = Question::plain(case.sheet, flags);
            group.of_kind(case.kind, &made, &question, &mut random);
            let place = place_by_model(case.kind, &made, &question);
            let problem = (place != wanted).then(|| format!("the model says {place}"));
            group.tally.count(problem, || question.shown(&made));
        }
    }
    group.end(ended);
}

fn place_by_model(kind: Option<Kind>, made: &Made, question: &Question) -> usize {
    let lent = made.lent();
    let Some(kind) = kind else {
        let text = reader::scalar(lent, question.flags, question.depth);
        return text.err().unwrap_or_default().place;
    };
    let told = reader::read(kind, lent, question.asked(), enough(lent));
    match kind {
        Kind::Struct => told.entries[0][5] as usize,
        _ => told.place,
    }
}

/// Bodies with many references, each read strictly and not: for a reading by a sheet that
/// tells places, or for the others.
fn referring_bodies(kind: Option<Kind>, count: u64, seed: u64, ended: &mut Ended) {
    let name = kind.map_or("the others".to_string(), |kind| format!("{kind:?}"));
    let mut group = Group::new(format!("{name}: bodies with references"), Source::Referring);
    let mut random = Random::new(seed ^ 0x26 ^ (kind.map_or(4, |kind| kind as u64) << 8));
    for _ in 0..count {
        let made = Made::of(&shaped::referring(kind, &mut random));
        let mut question = Question::entered(kind.unwrap_or(Kind::List), &made, &mut random);
        question.depth = 0;
        for strict in [0, 1] {
            question.flags = question.flags & !1 | strict;
            group.of_kind(kind, &made, &question, &mut random);
        }
    }
    group.end(ended);
}

/// Every row of up to `count` snippets in a root.
fn every_body(count: usize, seed: u64, ended: &mut Ended) {
    fn longer(group: &mut Group, body: &mut String, random: &mut Random, left: usize) {
        for end in ["</r>", ""] {
            group.all(format!("{body}{end}").as_bytes(), random);
        }
        for snippet in SNIPPETS.iter().filter(|_| left > 0) {
            body.push_str(snippet);
            longer(group, body, random, left - 1);
            body.truncate(body.len() - snippet.len());
        }
    }
    let name = format!("every root of up to {count} of {} snippets", SNIPPETS.len());
    let mut group = Group::new(name, Source::Snippets);
    longer(
        &mut group,
        &mut "<r x='7'>".to_string(),
        &mut Random::new(seed ^ 0x5A),
        count,
    );
    group.end(ended);
}

/// Bodies cut at every byte, read by each operation, strictly and not.
fn every_cut(count: usize, seed: u64, ended: &mut Ended) {
    let mut group = Group::new("bodies cut at every byte", Source::Cut);
    let mut random = Random::new(seed ^ 0xC7);
    for _ in 0..count {
        let body = body_to_cut(&mut random);
        let whole = Made::of(&body);
        for kind in Kind::ALL {
            let mut question = Question::entered(kind, &whole, &mut random);
            question.depth = 0;
            for end in 0..=body.len() {
                question.flags = end as u32 % 8;
                group.reading(kind, &Made::of(&body[..end]), &question, true);
            }
        }
        let body = a_scalar_body(&mut random);
        for end in 0..=body.len().min(LONG) {
            let made = Made::of(&body[..end]);
            let question = Question::entered(Kind::List, &made, &mut random);
            group.others(&made, &question, &mut random, true);
        }
    }
    group.end(ended);
}

/// One of some length, for any kind.
fn body_to_cut(random: &mut Random) -> Vec<u8> {
    loop {
        let body = a_body(Kind::ALL[random.below(4)], random);
        if (40..200).contains(&body.len()) {
            return body;
        }
    }
}

fn less_room(kind: Kind, count: u64, seed: u64, ended: &mut Ended) {
    let mut group = Group::new(format!("{kind:?}: less room"), Source::LessRoom);
    let mut random = Random::new(seed ^ 0x20 ^ kind as u64);
    for _ in 0..count {
        let made = Made::of(&any_body(kind, &mut random));
        let question = Question::entered(kind, &made, &mut random);
        let share = random.below(1 << 20);
        let outcome = group
            .asker
            .in_less_room(kind, made.lent(), question.asked(), share);
        group.count(kind.into(), outcome, question.derived, || {
            question.shown(&made)
        });
    }
    group.end(ended);
}

/// Every operation on tables that no tokenizer made.
fn lent_tables(count: u64, seed: u64, ended: &mut Ended) {
    let mut group = Group::new("tables that no tokenizer made", Source::Lent);
    let mut random = Random::new(seed ^ 0x1E);
    for _ in 0..count {
        let made = a_lent_table(&mut random);
        let kind = Kind::ALL[random.below(4)];
        let question = Question::random(kind, &made, &mut random);
        group.reading(kind, &made, &question, false);
        group.others(&made, &question, &mut random, false);
    }
    group.end(ended);
}

/// One grown over bytes that are no document, or a body's with changes.
fn a_lent_table(random: &mut Random) -> Made {
    if random.chance(40) {
        return lent::grown(random);
    }
    loop {
        let body = any_body(Kind::ALL[random.below(4)], random);
        if body.len() <= LONG {
            return lent::changed(&Made::of(&body), random);
        }
    }
}

/// Texts that are numbers or booleans, or nearly so.
fn scalar_text(random: &mut Random) -> Vec<u8> {
    match random.below(20) {
        0..=2 => texts::random(random),
        3..=9 => random.pick(&BOOLEANS).as_bytes().to_vec(),
        _ => number_text(random).into_bytes(),
    }
}

const BOOLEANS: [&str; 10] = [
    "true",
    "true",
    "false",
    "false",
    "True",
    "tru&#101;",
    "false ",
    "1",
    "",
    "truefalse",
];
const BOUNDS: [&str; 7] = [
    "0",
    "7",
    "2147483647",
    "2147483648",
    "2147483649",
    "4294967296",
    "99999999999999999999",
];

fn number_text(random: &mut Random) -> String {
    let sign = random.pick(&["", "", "-", "+", "--", " ", "&#45;"]);
    let digits = match random.below(4) {
        0 => random.pick(&BOUNDS).to_string(),
        1 => format!("{}{}", "0".repeat(random.below(12)), random.below(1 << 33)),
        2 => format!("{}x", random.below(100)),
        _ => random.below(1 << 32).to_string(),
    };
    format!("{sign}{digits}")
}

fn text_scalars(count: u64, seed: u64, ended: &mut Ended) {
    let mut group = Group::new("booleans, integers and strings of texts", Source::Text);
    let mut random = Random::new(seed ^ 0x7E);
    for _ in 0..count {
        let text = scalar_text(&mut random);
        for outcome in group.asker.text_scalars(&text) {
            group.count(Operation::OfText, outcome, false, || hex(&text));
        }
    }
    group.end(ended);
}

/// The arguments, or what is wrong with them.
fn arguments() -> Option<(Size, u64)> {
    let (mut size, mut seed) = (SHORTER, 20_261_116);
    let mut words = std::env::args().skip(1);
    while let Some(word) = words.next() {
        match word.as_str() {
            "--full" => size = FULL,
            "--seed" => seed = words.next()?.parse().ok()?,
            _ => return None,
        }
    }
    Some((size, seed))
}

fn main() {
    let Some((size, seed)) = arguments() else {
        eprintln!("usage: readings [--full] [--seed S]");
        std::process::exit(2);
    };
    println!("seed {seed}");
    let Size {
        floor,
        snippets,
        cut,
        referring,
    } = size;
    let mut ended = Ended::default();
    by_hand(seed, &mut ended);
    for kind in Kind::ALL {
        random_bodies(kind, floor.bodies, seed, &mut ended);
    }
    scalars_and_find(floor.scalars, seed, &mut ended);
    for kind in [Kind::Struct, Kind::Map, Kind::Strings] {
        referring_bodies(Some(kind), referring, seed, &mut ended);
    }
    referring_bodies(None, referring / 3, seed, &mut ended);
    every_body(snippets, seed, &mut ended);
    every_cut(cut, seed, &mut ended);
    for kind in Kind::ALL {
        less_room(kind, floor.rooms, seed, &mut ended);
    }
    lent_tables(floor.lent, seed, &mut ended);
    text_scalars(floor.scalars, seed, &mut ended);
    ended.sizes(&floor);
    finish(&ended.groups);
}
