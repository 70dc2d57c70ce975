//! Answers one question a line. See README.md for the questions and answers.

use std::io::{BufRead, Write};

fn main() {
    let stdin = std::io::stdin();
    let mut out = std::io::BufWriter::new(std::io::stdout());
    for line in stdin.lock().lines() {
        let answer = oracle::answer(&line.expect("a line of text"));
        writeln!(out, "{answer}").expect("room to write");
        out.flush().expect("room to write");
    }
}
