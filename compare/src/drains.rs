//! The check of one table: the static library's drain beside what is expected. The place
//! of a bad reference stands beside 01's rules alone: the Rust knows none.

use crate::model;
use crate::rules::{self, Answer, Lent, Rule};
use falzheod::{sys, Row};
use oracle::hex::hex;

/// What stands in memory around a body and around rows. A library that looks past
/// either end finds what would change its answer.
const BEFORE: &[u8] = b"<";
const BEHIND: &[u8] = b"/>;";
const ROW_BEFORE: [u32; 8] = [1, 0, 0, 0, 0, 0, 0, 0];
const ROW_BEHIND: [u32; 8] = [8, 0, 0, 0, 0, 0, 0, 0];

/// Holds the memory that is lent, for one table after the other.
#[derive(Default)]
pub struct Drainer {
    body: Vec<u8>,
    rows: Vec<u32>,
    pub counts: Counts,
}

/// How many tables were drained, and what was to come of them.
#[derive(Clone, Copy, Default)]
pub struct Counts {
    /// 0, 1, and 9 by its causes 1 to 5.
    answers: [u64; 7],
    /// Bad references in attributes and in texts, and those of both that stand behind a
    /// right one in their value.
    pub in_attributes: u64,
    pub in_texts: u64,
    pub behind: u64,
}

impl Counts {
    fn add(&mut self, lent: Lent<'_>, answer: Answer, place: usize) {
        let index = if answer.number == 9 {
            1 + answer.cause
        } else {
            answer.number
        };
        self.answers[index as usize] += 1;
        if answer.is_reference() {
            let row = &lent.numbers[8 * answer.row..][..8];
            self.in_attributes += u64::from(row[0] == 2);
            self.in_texts += u64::from(row[0] == 6);
            let before = &lent.body[row[5] as usize..place];
            self.behind += u64::from(before.contains(&b'&'));
        }
    }

    pub fn merge(&mut self, other: &Counts) {
        for (sum, count) in self.answers.iter_mut().zip(other.answers) {
            *sum += count;
        }
        self.in_attributes += other.in_attributes;
        self.in_texts += other.in_texts;
        self.behind += other.behind;
    }

    pub fn all(&self) -> u64 {
        self.answers.iter().sum()
    }

    /// How often each answer was expected, in words.
    pub fn shown(&self) -> String {
        let [passes, table, token, mismatched, unclosed, repeated, reference] = self.answers;
        format!(
            "{passes} pass, {table} break a rule, {token} token, {mismatched} mismatched, \
             {unclosed} unclosed, {repeated} repeated, {reference} reference ({} in attributes, \
             {} in texts, {} behind a right one)",
            self.in_attributes, self.in_texts, self.behind
        )
    }
}

impl Drainer {
    /// What differs for a body and the Rust's own table of it, if anything. The
    /// Rust has no limits; past them the answer is 1.
    pub fn beside_rust(&mut self, body: &[u8]) -> Option<String> {
        let table = oracle::table::table(body);
        if let Some(problem) = wrapper_differs(body, &table) {
            return Some(problem);
        }
        let numbers = table.rows.concat();
        let lent = Lent {
            body,
            numbers: &numbers,
            end: table.end,
        };
        let expected = if is_past_a_limit(body, &table.rows) {
            Answer::TABLE
        } else {
            of_rust(body)
        };
        let by_rules = rules::answer(lent);
        if by_rules != expected {
            return Some(format!("01 says {by_rules:?}, the Rust {expected:?}"));
        }
        self.beside(lent, expected)
    }

    /// The same for any table, beside 01's rules.
    pub fn beside_rules(&mut self, lent: Lent<'_>) -> Option<String> {
        self.beside(lent, rules::answer(lent))
    }

    /// The same for a table that breaks just one rule, or none.
    pub fn breaking(&mut self, lent: Lent<'_>, rule: Option<Rule>) -> Option<String> {
        let broken = rules::broken(lent);
        if !broken.iter().copied().eq(rule) {
            return Some(format!("breaks {broken:?}, not {rule:?}"));
        }
        self.beside_rules(lent)
    }

    fn beside(&mut self, lent: Lent<'_>, expected: Answer) -> Option<String> {
        let place = rules::place(lent, expected);
        self.counts.add(lent, expected, place);
        let (got, told, untouched) = self.ask(lent);
        if got != expected {
            return Some(format!("is {got:?}, not {expected:?}"));
        }
        if told != place || !model::may_be_told(lent.body, got.is_reference(), told) {
            return Some(format!("tells the place {told}, not {place}, with {got:?}"));
        }
        (!untouched).then(|| "wrote to what it only reads".to_string())
    }

    /// The library's answer and place, and whether the memory lent is as it was.
    fn ask(&mut self, lent: Lent<'_>) -> (Answer, usize, bool) {
        self.body.clear();
        for part in [BEFORE, lent.body, BEHIND] {
            self.body.extend_from_slice(part);
        }
        self.rows.clear();
        for part in [&ROW_BEFORE, lent.numbers, &ROW_BEHIND] {
            self.rows.extend_from_slice(part);
        }
        let body = &self.body[BEFORE.len()..][..lent.body.len()];
        let rows = &self.rows[ROW_BEFORE.len()..][..lent.numbers.len()];
        // not 0: that they become 0 has to show
        let (mut row, mut cause, mut place) = (usize::MAX, u32::MAX, usize::MAX);
        // SAFETY: pointers to live memory of the lengths given; nothing overlaps.
        let number = unsafe {
            sys::falzheod_drain(
                body.as_ptr(),
                body.len(),
                rows.as_ptr(),
                rows.len(),
                lent.end,
                &mut row,
                &mut cause,
                &mut place,
            )
        };
        let answer = Answer { number, row, cause };
        let untouched = body == lent.body && rows == lent.numbers;
        (answer, place, untouched)
    }
}

/// A table as it is shown: what a person needs to ask again.
pub fn shown(lent: Lent<'_>) -> String {
    let rows: Vec<String> = lent
        .numbers
        .chunks(8)
        .map(|row| row.iter().map(u32::to_string).collect::<Vec<_>>().join(","))
        .collect();
    format!(
        "body {} end {} rows {}",
        hex(lent.body),
        lent.end,
        rows.join(" ")
    )
}

/// The Rust's answer for a body.
pub fn of_rust(body: &[u8]) -> Answer {
    match oracle::table::drain(body) {
        Ok(()) => Answer::PASSES,
        Err((row, cause)) => Answer::ill_formed(row, cause_number(cause)),
    }
}

fn cause_number(cause: &str) -> u32 {
    let causes = ["token", "mismatched", "unclosed", "repeated", "reference"];
    let place = causes.iter().position(|known| *known == cause);
    1 + place.expect("a cause of the oracle's") as u32
}

/// Counted here once more, for a mistake in rules.rs to show.
fn is_past_a_limit(body: &[u8], rows: &[[u32; 8]]) -> bool {
    let (mut open, mut most) = (0, 0);
    for row in rows {
        match row[0] {
            1 => open += 1,
            4 | 5 => open -= 1,
            _ => {}
        }
        most = most.max(open);
    }
    body.len() > 65_536 || rows.len() > 8_192 || most > 256
}

/// The wrapper makes the same table, with the tokenizer as it is packaged. Past a limit
/// it makes the front of it, and that passes a limit too.
fn wrapper_differs(body: &[u8], table: &oracle::table::Table) -> Option<String> {
    let made = falzheod::table::from_tokens(body);
    let rows: Vec<[u32; 8]> = made.rows.iter().map(Row::numbers).collect();
    let past = is_past_a_limit(body, &table.rows);
    let alike = if past {
        table.rows.starts_with(&rows) && is_past_a_limit(body, &rows)
    } else {
        table.rows == rows
    };
    (!alike || made.end != table.end).then(|| "the wrapper's table is not the Rust's".to_string())
}
