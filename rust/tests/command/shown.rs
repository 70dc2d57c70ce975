//! Entries as tables: the sample, refusals, and places in pieces and groups.

use crate::common::{file, folder, piped, root, upload, Ran};
use std::fs;

/// Reads a body by sheets.
fn read(test: &str, sheets: &str, words: &[&str], body: &str) -> Ran {
    let sheet = file(&folder(test), "sheet", sheets);
    let sheet = ["--sheet", sheet.to_str().unwrap()];
    piped(&[&sheet, words, &["-"]].concat(), body)
}

fn expected(name: &str) -> String {
    let path = root().join("rust/tests/command").join(name);
    fs::read_to_string(path).unwrap()
}

#[test]
fn the_sample() {
    let sheet = ["--sheet", "samples/cores.sheet"];
    let ran = upload(&[&sheet[..], &["samples/cores.xml"]].concat());
    assert_eq!((ran.status, ran.err.as_str()), (0, ""));
    assert_eq!(ran.out, expected("cores.txt"));
    let ran = upload(&[&sheet[..], &["--deep", "samples/cores.xml"]].concat());
    assert_eq!((ran.status, ran.err.as_str()), (0, ""));
    assert_eq!(ran.out, expected("cores-deep.txt"));
}

#[test]
fn nothing_at_every_cut_of_the_sample() {
    let body = fs::read(root().join("samples/cores.xml")).unwrap();
    let words = ["--sheet", "samples/cores.sheet", "--deep", "-"];
    for length in (0..body.len() - 1).step_by(37) {
        let ran = piped(&words, &body[..length]);
        assert_eq!((ran.status, ran.err.as_str()), (1, ""), "{length}");
        assert!(!ran.out.contains("passes"), "{length}: {}", ran.out);
        assert!(!ran.out.contains("entries"), "{length}: {}", ran.out);
    }
}

#[test]
fn a_root_of_another_name() {
    let ran = read("root-name", "structure core", &[], "<d:cores/>");
    assert_eq!(ran.status, 1);
    assert_eq!(
        ran.out,
        "-: passes: 2 tokens, 10 bytes\n\
         -: well-formed, but not read whole\n\
         core: structure core, refused with 5: the root has another name than the sheet says: \
         it is d:cores, and the sheet says core; 0 entries before\n"
    );
}

#[test]
fn what_was_written_before_a_refusal() {
    let ran = read(
        "before",
        "strings s",
        &[],
        "<u><s>one</s><s><b/>a</s><s>two</s></u>",
    );
    assert_eq!(ran.status, 1);
    assert!(ran.out.ends_with(
        "s: strings s, refused with 6: an element stands where text is wanted; 1 entry before\n  \
         kind  value\n  \
         text  one\n"
    ));
}

#[test]
fn a_scalar_with_an_element_in_it_is_not_whole() {
    let sheet = "structure r\n scalar a\n scalar b";
    let ran = read("failed", sheet, &[], "<r><a><y/></a><b>1</b></r>");
    assert_eq!(ran.status, 1);
    assert!(ran.out.ends_with(
        "r: structure r, 2 entries\n  \
         kind    member  value\n  \
         failed  a       refused with 6: an element stands where text is wanted\n  \
         text    b       1\n"
    ));
}

#[test]
fn maps_have_keys() {
    let sheet = "map m\n key year\n value width";
    let body = "<m>\n<e><year>1911</year><width>1480</width></e>\
                <e><year>1912</year><width>9\t&#10;</width></e></m>";
    let ran = read("map", sheet, &[], body);
    assert_eq!(ran.status, 0);
    assert!(
        ran.out.ends_with(
            "m: map m, 2 entries\n  kind  key   value\n  text  1911  1480\n  \
         text  1912  9\u{2409}\u{240A}\n"
        ),
        "{}",
        ran.out
    );
}

#[test]
fn a_map_whose_values_are_read_deeper() {
    let sheets = "map m\n aggregate value by ring\nstructure ring\n attribute w";
    let body = "<m><e><key>a</key><value w='1'/></e>\n<e><key>b</key><value w='2'/></e></m>";
    let ran = read("map-deep", sheets, &["--deep"], body);
    assert_eq!(ran.status, 0);
    let expected = "\
m: map m, 2 entries
  kind   key  place  value
  piece  a    1:19   <value w='1'/> (14 bytes)
  piece  b    2:16   <value w='2'/> (14 bytes)
m/[a]: structure ring at 1:19, 1 entry
  kind  member  value
  text  w       1
m/[b]: structure ring at 2:16, 1 entry
  kind  member  value
  text  w       2
";
    assert!(ran.out.ends_with(expected), "{}", ran.out);
}

#[test]
fn a_group_is_read_as_a_list_or_piece_by_piece() {
    let body = "<r><n>1</n>\n <x/><n a='2'><k/></n></r>";
    let head = "structure r\n flattened aggregate n by n\n";
    let list = format!("{head}list n flattened\n item n by k\nlist k\n item");
    let ran = read("group-list", &list, &["--deep"], body);
    assert_eq!(ran.status, 0);
    let expected = "\
r: structure r, 1 entry
  kind   member  place  value
  group  n       1:4    2 pieces: <n>1</n> (8 bytes), ..
r/n: list n, 2 entries
  kind   place  value
  piece  1:4    <n>1</n> (8 bytes)
  piece  2:6    <n a='2'><k/></n> (17 bytes)
r/n/[1]: list k at 1:4, 0 entries
r/n/[2]: list k at 2:6, 1 entry
  kind   place  value
  piece  2:15   <k/> (4 bytes)
";
    assert!(ran.out.ends_with(expected), "{}", ran.out);
    let each = format!("{head}structure n\n attribute a");
    let ran = read("group-each", &each, &["--deep"], body);
    assert!(
        ran.out.contains("r/n[1]: structure n at 1:4, 0 entries\n"),
        "{}",
        ran.out
    );
    assert!(
        ran.out.contains("r/n[2]: structure n at 2:6, 1 entry\n"),
        "{}",
        ran.out
    );
}

#[test]
fn a_refusal_below_is_not_whole() {
    let sheets = "list l\n item by s\nstrings s";
    let ran = read(
        "below",
        sheets,
        &["--deep"],
        "<l><a><b>1</b></a><a><b><c/></b></a></l>",
    );
    assert_eq!(ran.status, 1);
    assert!(
        ran.out.contains("-: well-formed, but not read whole\n"),
        "{}",
        ran.out
    );
    assert!(
        ran.out
            .contains("l/[2]: strings s at 1:19, refused with 6: "),
        "{}",
        ran.out
    );
}

#[test]
fn a_refusal_in_one_piece_of_a_group_is_not_whole() {
    let sheets = "structure r\n flattened aggregate n by n\nstructure n\n scalar a";
    let body = "<r><n><a>1</a></n><n><a><b/></a></n></r>";
    let ran = read("group-piece", sheets, &["--deep"], body);
    assert_eq!(ran.status, 1);
    assert!(
        ran.out.contains("-: well-formed, but not read whole\n"),
        "{}",
        ran.out
    );
    assert!(ran.out.contains("r/n[2]: structure n at 1:19, 1 entry\n"));
}

/// The text of a scalar is its first text, and help.txt says so.
#[test]
fn what_stands_behind_the_first_text() {
    let body = "<a><v><![CDATA[7]]></v><v>1<w/></v><v>4<!-- c -->5</v></a>";
    let ran = read("first-text", "structure a\n scalar v", &[], body);
    assert_eq!(ran.status, 0);
    let table = "  kind  member  value\n  text  v\n  text  v       1\n  text  v       4\n";
    assert!(ran.out.ends_with(table), "{}", ran.out);
}

#[test]
fn a_group_that_is_too_large_with_its_tags() {
    let sheets = "structure a\n flattened aggregate b by l\nlist l flattened";
    let body = format!("<a><b>{}</b></a>", "x".repeat(65_536 - 14));
    let ran = read("group-large", sheets, &["--deep"], &body);
    assert_eq!(ran.status, 1);
    let said = "refused with 1: the group with its two tags has more than 65,536 bytes";
    assert!(ran.out.contains(said), "{}", ran.out);
}

#[test]
fn long_keys_are_shortened() {
    let body = format!(
        "<m><e><key>{}</key><value>1</value></e></m>",
        "k".repeat(300)
    );
    let ran = read("long-key", "map m\n value", &[], &body);
    let row = format!("  text  {}..  1", "k".repeat(46));
    assert_eq!(ran.out.lines().last(), Some(row.as_str()));
}

#[test]
fn a_sheet_that_names_itself_ends_at_the_maximum_depth() {
    let nested = "list l\n item by l";
    let ran = read("itself", nested, &["--deep"], "<a><b><c/></b></a>");
    assert_eq!((ran.status, ran.out.lines().count()), (0, 8));
    let unwrapped = "structure a unwrapped\n aggregate a by a";
    let ran = read("itself-unwrapped", unwrapped, &["--deep"], "<a/>");
    assert_eq!(ran.status, 1);
    let last = ran.out.lines().last().unwrap();
    assert!(
        last.contains("refused with 3: the depth is at or above the maximum"),
        "{last}"
    );
}

#[test]
fn columns_are_aligned_by_cells() {
    let sheet = "structure r\n attribute 年\n attribute id";
    let ran = read("cells", sheet, &[], "<r 年='1911' id='7'/>");
    let table: Vec<&str> = ran.out.lines().skip(2).collect();
    assert_eq!(
        table,
        [
            "  kind  member  value",
            "  text  年      1911",
            "  text  id      7"
        ]
    );
}
