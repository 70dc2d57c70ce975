//! Every public item has an example in its documentation, which `cargo test` runs. Those of
//! `sys`, the library's own functions, are described in include/falzheod.h.

use std::fs;
use std::path::Path;

/// What no user sees: modules that are private to the crate, and `sys`.
const INNER: [&str; 3] = ["sys.rs", "bytes.rs", "tokenizer_words.rs"];

fn is_public(line: &str) -> bool {
    let method = line.strip_prefix("    ").unwrap_or(line);
    let items = ["struct ", "enum ", "const ", "fn "];
    let item = line
        .strip_prefix("pub ")
        .is_some_and(|rest| items.iter().any(|kind| rest.starts_with(kind)));
    item || method.starts_with("pub fn ") || method.starts_with("pub const fn ")
}

/// The public items of a file that have no example.
fn without_example(text: &str) -> Vec<String> {
    let lines: Vec<&str> = text.lines().collect();
    let public = (0..lines.len()).filter(|at| is_public(lines[*at]));
    let bare = public.filter(|at| {
        let above = lines[..*at].iter().rev().map(|line| line.trim_start());
        let mut about = above.take_while(|line| line.starts_with("///") || line.starts_with("#["));
        !about.any(|line| line.starts_with("/// ```"))
    });
    bare.map(|at| lines[at].trim().to_string()).collect()
}

fn look(directory: &Path, seen: &mut usize, bare: &mut Vec<String>) {
    for entry in fs::read_dir(directory).unwrap() {
        let path = entry.unwrap().path();
        let name = path.file_name().unwrap().to_str().unwrap();
        if path.is_dir() && name != "bin" {
            look(&path, seen, bare);
        } else if path.is_file() && !INNER.contains(&name) {
            let text = fs::read_to_string(&path).unwrap();
            *seen += text.lines().filter(|line| is_public(line)).count();
            bare.extend(without_example(&text));
        }
    }
}

#[test]
fn every_public_item_has_an_example() {
    let (mut seen, mut bare) = (0, Vec::new());
    let source = Path::new(env!("CARGO_MANIFEST_DIR")).join("src");
    look(&source, &mut seen, &mut bare);
    assert_eq!(bare, Vec::<String>::new());
    assert!(seen > 120, "{seen}");
}
