//! Times an upload from bytes to a verdict, beside the Rust and, with the feature
//! `c-parsers`, beside expat and libxml2. Build it with `--profile speed`. The program of
//! the same name in others/ has quick-xml and roxmltree too.

fn main() {
    compare::upload_times::print(&[]);
}
