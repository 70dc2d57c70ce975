//! From the bytes of an upload to a verdict: our check, which makes the token table and
//! drains it, beside the Rust's check and beside other parsers, in one run. Prints Markdown
//! tables.
//!
//! Ours is `Checker::check`, with one buffer for the rows of all calls. Its two parts are
//! timed apart too: the table in a new buffer each time, `table::from_tokens`, and the
//! drain. Before a body is timed, all pass it. What else they take and refuse, the last
//! table tells, of the uploads in samples/uploads.

use crate::lent::Made;
use crate::timing::{self, heading, medians_of, ratio_cells, TURNS};
use crate::uploads;
use falzheod::table::from_tokens;
use falzheod::Checker;
use std::fs;
use std::hint::black_box;
use std::path::Path;

/// Another parser: its name, and whether it takes a body.
#[derive(Clone, Copy)]
pub struct Parser {
    pub name: &'static str,
    pub passes: fn(&[u8]) -> bool,
}

const OURS: Parser = Parser {
    name: "Falzheod",
    passes: |body| falzheod::check(body).is_ok(),
};

const RUST: Parser = Parser {
    name: "Rust",
    passes: oracle::table::is_well_formed,
};

/// The C libraries, where they are linked.
#[cfg(feature = "c-parsers")]
const IN_C: &[Parser] = &crate::c_parsers::ALL;
#[cfg(not(feature = "c-parsers"))]
const IN_C: &[Parser] = &[];

/// All tables, with these parsers beside those that are always at hand.
pub fn print(crates: &[Parser]) {
    let others = [crates, IN_C].concat();
    println!("Medians of {TURNS} turns; a ratio is the other's time by ours.");
    heading("body", &["table ns", "drain ns", "Rust ns", "ratio"]);
    let bodies = uploads::checked();
    let beside: Vec<String> = bodies
        .iter()
        .map(|(name, body)| row(name, body, &others))
        .collect();
    if !others.is_empty() {
        print_others(&others, &beside);
    }
    print_verdicts(&others);
}

/// Prints a line of the first table, and gives that of the second.
fn row(name: &str, body: &[u8], others: &[Parser]) -> String {
    let all = [&[OURS, RUST], others].concat();
    for parser in &all {
        assert!((parser.passes)(body), "{name}: refused by {}", parser.name);
    }
    let made = Made::of(body);
    let times = times(&made, &all[1..]);
    let (ours, table, drain, rust) = (times[0], times[1], times[2], times[3]);
    let parts = [table, drain].map(|time| format!("{time:.0}"));
    let cells = [parts, ratio_cells(rust, ours)].concat();
    timing::line(name, body.len(), made.rows(), ours, &cells);
    let cells = times[4..].iter().flat_map(|time| ratio_cells(*time, ours));
    let cells: String = cells.map(|cell| format!(" {cell} |")).collect();
    format!("| {name} |{cells}")
}

/// Our check, its two parts, and the others.
fn times(made: &Made, others: &[Parser]) -> Vec<f64> {
    let mut checker = Checker::new();
    let mut check = || {
        black_box(checker.check(black_box(&made.body)).is_ok());
    };
    let mut table = || {
        black_box(from_tokens(black_box(&made.body)));
    };
    let mut drain = || {
        let rows = black_box(&made.numbers);
        let _ = black_box(falzheod::drain_numbers(&made.body, rows, made.end));
    };
    let mut rest: Vec<_> = others
        .iter()
        .map(|parser| {
            || {
                black_box((parser.passes)(black_box(&made.body)));
            }
        })
        .collect();
    let mut calls: Vec<&mut dyn FnMut()> = vec![&mut check, &mut table, &mut drain];
    calls.extend(rest.iter_mut().map(|call| call as &mut dyn FnMut()));
    medians_of(&mut calls)
}

fn print_others(others: &[Parser], lines: &[String]) {
    let names: String = others
        .iter()
        .map(|parser| format!(" {} ns | ratio |", parser.name))
        .collect();
    println!("\n| body |{names}");
    println!("|---|{}", "---:|".repeat(2 * others.len()));
    println!("{}", lines.join("\n"));
}

/// Of samples/uploads those that not all judge as XML 1.0 does, and how many each judges
/// otherwise.
fn print_verdicts(others: &[Parser]) {
    let all = [&[OURS, RUST], others].concat();
    let names = all.iter().map(|parser| format!(" {} |", parser.name));
    println!("\n| sample |{}", names.collect::<String>());
    println!("|---|{}", "---|".repeat(all.len()));
    let samples = samples();
    for sample in &samples {
        let cells = all.iter().map(|parser| sample.cell(parser));
        let cells: String = cells.collect();
        if cells.contains(char::is_alphabetic) {
            println!("| {} |{cells}", sample.name);
        }
    }
    let wrong = all.iter().map(|parser| {
        let wrong = samples.iter().filter(|sample| sample.is_misjudged(parser));
        format!(" {} |", wrong.count())
    });
    println!(
        "| in all, of {} |{}",
        samples.len(),
        wrong.collect::<String>()
    );
}

/// An upload of samples/uploads.
struct Sample {
    name: String,
    body: Vec<u8>,
    /// XML 1.0 takes it.
    is_good: bool,
}

impl Sample {
    fn is_misjudged(&self, parser: &Parser) -> bool {
        (parser.passes)(&self.body) != self.is_good
    }

    /// A cell of the table, empty where the verdict is XML 1.0's.
    fn cell(&self, parser: &Parser) -> &'static str {
        match (self.is_misjudged(parser), self.is_good) {
            (false, _) => " |",
            (true, false) => " taken |",
            (true, true) => " refused |",
        }
    }
}

/// The uploads of samples/uploads, as expected.tsv has them.
fn samples() -> Vec<Sample> {
    let folder = Path::new(env!("CARGO_MANIFEST_DIR")).join("../samples/uploads");
    let lines = fs::read_to_string(folder.join("expected.tsv")).expect("the list of samples");
    let lines = lines.lines().filter(|line| !line.starts_with('#'));
    let sample = |line: &str| {
        let (name, rest) = line.split_once('\t').expect("a file and more");
        Sample {
            name: name.to_string(),
            body: fs::read(folder.join(name)).expect("a sample"),
            // some are bad for a limit of ours alone, and the last column says so
            is_good: name.starts_with("good") || rest.contains("\twell-formed"),
        }
    };
    lines.map(sample).collect()
}
