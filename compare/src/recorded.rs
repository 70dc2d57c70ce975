//! Lines of recorded answers over tables: the drain's, and those of the readings.
//! src/bin/record.rs says what they look like.

use crate::bodies;
use crate::drains::of_rust;
use crate::lent::Made;
use crate::random::Random;
use crate::reader::Kind;
use crate::shaped;
use crate::sheets::{self, maybe_broken, names_in, Structure};
use oracle::hex::{bytes, hex};
use std::collections::HashSet;

/// How many of each kind of reading with a sheet, of each kind of scalar, and of finds.
const READINGS: usize = 1_500;
const SCALARS: usize = 500;
const FINDS: usize = 500;

/// The longest body of a reading.
const LONGEST: usize = 90;

/// Body, final position and rows.
fn table(body: &[u8]) -> String {
    let made = Made::of(body);
    format!("{} {} {}", hex(body), made.end, listed(&made.numbers))
}

fn listed(numbers: &[u32]) -> String {
    if numbers.is_empty() {
        return "-".to_string();
    }
    let numbers: Vec<String> = numbers.iter().map(u32::to_string).collect();
    numbers.join(",")
}

pub fn drain_line(body: &[u8]) -> String {
    let asked = format!("d {}", table(body));
    let answer = of_rust(body);
    match answer.number {
        0 => format!("{asked} 0"),
        number => format!("{asked} {number} {} {}", answer.row, answer.cause),
    }
}

/// What the oracle shows of a reading, in document 01's numbers: the number, the
/// entries and the text bytes.
fn told(kind: Kind, answer: &str) -> (u32, Vec<u32>, Vec<u8>) {
    let mut words = answer.split(' ');
    let number = match words.next() {
        Some("ok") => 0,
        _ => words.next().expect("a number").parse().expect("a number"),
    };
    let (mut numbers, mut texts) = (Vec::new(), Vec::new());
    for entry in words {
        let fields: Vec<&str> = entry.split(',').collect();
        let field = |at: usize| fields[at].parse::<u32>().expect("a number");
        let key = bytes(fields[2]).expect("a key");
        let key_start = if kind == Kind::Map {
            texts.len() as u32
        } else {
            0
        };
        numbers.extend([field(0), field(1), key_start, key.len() as u32]);
        texts.extend(key);
        match field(0) {
            1 | 3 => {
                let text = bytes(fields[3]).expect("a text");
                numbers.extend([texts.len() as u32, text.len() as u32]);
                texts.extend(text);
            }
            2 => numbers.extend([field(3), field(4)]),
            // a failed text, whose place the Rust does not tell
            _ => numbers.extend([field(3), 0]),
        }
    }
    (number, numbers, texts)
}

/// The lines of the readings, each once.
pub struct Readings {
    pub lines: Vec<String>,
    seen: HashSet<String>,
    random: Random,
    longest: usize,
}

impl Readings {
    /// All of them; no line is as long as `longest`.
    pub fn all(longest: usize) -> Self {
        let mut readings = Readings {
            lines: Vec::new(),
            seen: HashSet::new(),
            random: Random::new(3),
            longest,
        };
        for kind in Kind::ALL {
            readings.fill(READINGS, |readings| readings.reading(kind));
        }
        for (letter, word) in [("b", "bool"), ("i", "int"), ("w", "string")] {
            readings.fill(SCALARS, |readings| Some(readings.scalar(letter, word)));
        }
        readings.fill(FINDS, |readings| Some(readings.find()));
        readings
    }

    fn fill(&mut self, count: usize, mut line: impl FnMut(&mut Self) -> Option<String>) {
        let end = self.lines.len() + count;
        while self.lines.len() < end {
            let Some(line) = line(self) else {
                continue;
            };
            if line.len() < self.longest && self.seen.insert(line.clone()) {
                self.lines.push(line);
            }
        }
    }

    /// One that obeys the limits: what is past them only our side refuses.
    fn body(&mut self, kind: Kind) -> Vec<u8> {
        loop {
            let body = if self.random.chance(80) {
                shaped::random(kind, &mut self.random)
            } else {
                bodies::random(&mut self.random)
            };
            if body.len() <= LONGEST {
                return body;
            }
        }
    }

    /// None where the Rust differs by design (an unwrapped sheet), cannot be asked, or
    /// hands out nothing, which would be most of them.
    fn reading(&mut self, kind: Kind) -> Option<String> {
        let body = self.body(kind);
        let names = names_in(&body, &Made::of(&body).numbers)
            .into_iter()
            .map(<[u8]>::to_vec);
        let names: Vec<Vec<u8>> = names.collect();
        let names: Vec<&[u8]> = names.iter().map(Vec::as_slice).collect();
        let random = &mut self.random;
        let letter = match kind {
            Kind::Struct => "s",
            Kind::List => "l",
            Kind::Map => "m",
            Kind::Strings => "t",
        };
        let sheet = maybe_broken(sheets::random(kind, random, &names), random);
        let (flags, depth) = (random.below(8), [0, 0, 0, 1, 127, 128][random.below(6)]);
        let maximum = [128, 128, 128, 1][random.below(4)];
        let question = format!(
            "{} {} {} {flags} {depth} {maximum}",
            kind.word(),
            hex(&body),
            hex(&sheet)
        );
        let answer = oracle::answer(&question);
        let unwrapped = Structure::of(&sheet).is_some_and(|sheet| sheet.unwrapped);
        if answer == "bad name" || kind == Kind::Struct && unwrapped {
            return None;
        }
        let (number, entries, texts) = told(kind, &answer);
        if entries.is_empty() && !self.random.chance(25) {
            return None;
        }
        let asked = format!(
            "{letter} {} {} {flags} {maximum} {depth} {number}",
            table(&body),
            hex(&sheet)
        );
        if kind == Kind::Strings && number != 0 {
            return Some(asked);
        }
        Some(format!("{asked} {} {}", listed(&entries), hex(&texts)))
    }

    fn scalar(&mut self, letter: &str, word: &str) -> String {
        let text = self.random.pick(&[
            "true",
            "false",
            "7",
            "-2147483648",
            "2147483648",
            "+5",
            "",
            "a &lt; b",
            "&#+65;",
        ]);
        let around = [
            ("<r>", "</r>"),
            ("<r>", ""),
            ("<r>", "</s>"),
            ("<r><b/>", "</r>"),
            ("<p:r x='1'>", "</p:r> "),
        ];
        let (start, end) = around[self.random.below(around.len())];
        let mut body = format!("{start}{text}{end}").into_bytes();
        if self.random.chance(50) {
            body = self.body(Kind::Strings);
        }
        let (flags, depth) = (self.random.below(8), self.random.below(2));
        let answer = oracle::answer(&format!("{word} {} {flags} {depth} 128", hex(&body)));
        let answer = answer
            .replace("ok true", "ok 1")
            .replace("ok false", "ok 0");
        let answer = answer.replace("ok", "0").replace("refuse ", "");
        format!("{letter} {} {flags} {depth} {answer}", table(&body))
    }

    fn find(&mut self) -> String {
        let body = self.body(Kind::Struct);
        let numbers = Made::of(&body).numbers;
        let names = names_in(&body, &numbers);
        let name = if names.is_empty() || self.random.chance(20) {
            b"a"
        } else {
            self.random.pick(&names)
        };
        let answer = oracle::answer(&format!("find {} {}", hex(&body), hex(name)));
        let answer = answer.replace("ok", "0").replace("refuse ", "");
        format!("f {} {} {answer}", table(&body), hex(name))
    }
}
