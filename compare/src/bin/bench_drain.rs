//! Times the drain beside the Rust's own strict reading, in one run, and prints
//! Markdown tables. Build it with `--profile speed`.
//!
//! Ours has the table at hand; making it is the tokenizer's work. So the Rust stands
//! beside it twice: tokenizing and draining strictly, which it cannot part, and
//! tokenizing alone. The difference of the two is what it pays for the strict drain.

use compare::bodies::{mixed_names, names, start_tag, tag_of};
use compare::lent::{self, Made};
use compare::timing::{heading, line, medians, ratio_cells, TURNS};
use compare::uploads;
use falzheod::Refusal;
use std::hint::black_box;

const BESIDE: [&str; 4] = ["Rust strictly ns", "ratio", "Rust tokenizing ns", "ratio"];

/// A root with comments: `rows` rows, as cheap as rows are.
fn comments(rows: usize) -> Vec<u8> {
    format!("<a>{}</a>", "<!---->".repeat(rows - 3)).into_bytes()
}

/// A root with empty elements: two rows each.
fn elements(rows: usize) -> Vec<u8> {
    format!("<a>{}</a>", "<b/>".repeat((rows - 3) / 2)).into_bytes()
}

fn drain(made: &Made) -> Result<(), Refusal> {
    falzheod::drain_numbers(&made.body, &made.numbers, made.end)
}

/// Ours, the Rust strictly, and its tokenizer alone. All pass.
fn row(name: &str, body: &[u8]) {
    let made = Made::of(body);
    assert_eq!(drain(&made), Ok(()));
    assert!(oracle::table::is_well_formed(body));
    let [ours, strict, tokens] = medians([
        &mut || {
            let _ = black_box(drain(black_box(&made)));
        },
        &mut || {
            black_box(oracle::table::is_well_formed(black_box(body)));
        },
        &mut || {
            black_box(oracle::table::count_tokens(black_box(body)));
        },
    ]);
    let beside = [ratio_cells(strict, ours), ratio_cells(tokens, ours)].concat();
    line(name, body.len(), made.rows(), ours, &beside);
}

/// Ours alone: the Rust cannot be lent a table.
fn lent_row(name: &str, made: &Made) {
    assert_eq!(drain(made), Ok(()));
    let [ours] = medians([&mut || {
        let _ = black_box(drain(black_box(made)));
    }]);
    let beside = BESIDE.map(|_| "-".to_string());
    line(name, made.body.len(), made.rows(), ours, &beside);
}

/// The worst that were found, each beside another with its names in order.
fn dear_tags() {
    let alike = tag_of(&names(5_461, &[1, 1, 1, 1, 1, 2, 62, 62]));
    row("5461 attributes, five bytes alike", &alike);
    row("worst body: 8190 mixed", &uploads::dearest());
    let in_order = tag_of(&names(8_190, &uploads::DEAREST));
    row("the same in order", &in_order);
    let mixed = mixed_names(8_190, &[1, 1, 1, 1, 2, 2, 46, 46]);
    lent_row("worst table: 8190 mixed", &lent::start_tag(&mixed, 4));
    let alike = names(8_190, &[1, 1, 1, 1, 1, 3, 62, 62]);
    let name = "a table of 8190, five bytes alike";
    lent_row(name, &lent::start_tag(&alike, 5));
}

fn main() {
    println!(
        "Medians of {TURNS} turns; a ratio is the Rust's time by ours. Ours has the table at hand."
    );
    heading("body", &BESIDE);
    for (name, body) in uploads::drained() {
        row(name, &body);
    }
    heading("growth with rows", &BESIDE);
    for rows in [1_024, 2_048, 4_096, 8_192] {
        row(&format!("comments, {rows}"), &comments(rows));
    }
    for rows in [1_024, 2_048, 4_096, 8_192] {
        row(&format!("empty elements, {rows}"), &elements(rows));
    }
    heading("one start tag", &BESIDE);
    for attributes in [1_022, 2_046, 4_094, 8_190] {
        let name = format!("{attributes} attributes");
        row(&name, start_tag(attributes, "p:").as_bytes());
    }
    dear_tags();
}
