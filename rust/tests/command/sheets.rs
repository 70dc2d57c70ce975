//! Sheets as text: into their bytes and back, and what is wrong with one.

use crate::common::{file, folder, upload, Ran};
use std::path::Path;

fn bytes_of(folder: &Path, text: &str) -> Ran {
    let sheet = file(folder, "sheet", text);
    upload(&["--sheet-bytes", sheet.to_str().unwrap()])
}

fn hex(bytes: &[u8]) -> String {
    bytes.iter().map(|byte| format!("{byte:02x}")).collect()
}

/// Sheets and their bytes; 0161 is the name `a`, and so on.
const WORDS: [(&str, &str); 21] = [
    ("structure a", "00 0161 00"),
    ("structure a shape b", "00 0162 00"),
    (
        "structure a named b original c member d unwrapped",
        "0f 0162 0163 0164 0161 00",
    ),
    (
        "structure a\nscalar b\nattribute b\naggregate b\nflattened aggregate b named c",
        "00 0161 04 02 0162 06 0162 12 0162 1b 0163 0162",
    ),
    (
        "structure a\nscalar -\nattribute - named b\nattribute flattened aggregate b",
        "00 0161 03 00 05 0162 1e 0162",
    ),
    ("structure a\nattribute by", "00 0161 01 06 026279"),
    ("list a", "00"),
    ("\u{FEFF}list a", "00"),
    ("list a flattened\nitem", "03"),
    ("list a\ritem \"-\"\r\n# c\r", "09 012d"),
    ("list a\nitem b", "09 0162"),
    ("strings a\nitem b named c", "0d 0163 0162"),
    ("list a\nitem - named c", "05 0163"),
    ("list a\nitem named c", "05 0163"),
    ("list a\nitem by a", "01"),
    ("map a", "00"),
    ("map a flattened\nkey b\nvalue c", "0f 0162 0163"),
    ("map a\nvalue", "04"),
    ("map a\naggregate value", "14"),
    ("map a\naggregate value c by a\nkey b", "1e 0162 0163"),
    (
        "  # c\n\n list a # d\n\titem\t\"\\x00 #\\\"\"\r\n",
        "09 0400202322",
    ),
];

#[test]
fn every_word_has_its_bit() {
    let folder = folder("sheet-words");
    for (text, bytes) in WORDS {
        let ran = bytes_of(&folder, text);
        assert_eq!((ran.status, ran.err.as_str()), (0, ""), "{text}");
        assert_eq!(ran.out.trim_end(), bytes.replace(' ', ""), "{text}");
    }
}

/// Numbers that look random and are the same in each run.
struct Random(u64);

impl Random {
    fn below(&mut self, most: usize) -> usize {
        self.0 = self
            .0
            .wrapping_mul(6_364_136_223_846_793_005)
            .wrapping_add(1);
        (self.0 >> 33) as usize % most
    }

    /// A name: a plain one, a word of the format, or any bytes.
    fn name(&mut self) -> Vec<u8> {
        const PLAIN: [&str; 16] = [
            "core",
            "m:unit",
            "年輪",
            "by",
            "named",
            "scalar",
            "-",
            "item",
            "key",
            "value",
            "#",
            "a b",
            "\"",
            "\\x41",
            "list",
            "µ\u{2028}\u{FEFF}",
        ];
        let name = match self.below(3) {
            0 => (0..self.below(6) + 1)
                .map(|_| self.below(256) as u8)
                .collect(),
            _ => PLAIN[self.below(PLAIN.len())].as_bytes().to_vec(),
        };
        [&[name.len() as u8][..], &name].concat()
    }

    /// A bit map byte, and a name for each of the bits that wants one.
    fn fields(&mut self, bits: usize, named: &[usize]) -> Vec<u8> {
        let map = self.below(1 << bits) as u8;
        let names = named.iter().filter(|bit| map >> **bit & 1 == 1);
        let names: Vec<u8> = names.flat_map(|_| self.name()).collect();
        [&[map][..], &names].concat()
    }

    fn structure(&mut self) -> Vec<u8> {
        let mut bytes = self.fields(4, &[0, 1, 2]);
        bytes.extend(self.name());
        let count = [0, 1, 2, 5, 64][self.below(5)];
        bytes.push(count);
        for _ in 0..count {
            bytes.extend(self.fields(5, &[0, 1]));
        }
        bytes
    }
}

/// Bytes, text, bytes, text: the second of each is the first.
fn comes_back(folder: &Path, kind: &str, bytes: &[u8]) {
    let bytes = hex(bytes);
    let text = upload(&["--sheet-text", &bytes, kind]);
    assert_eq!((text.status, text.err.as_str()), (0, ""), "{bytes}");
    let again = bytes_of(folder, &text.out);
    assert_eq!((again.status, again.err.as_str()), (0, ""), "{}", text.out);
    assert_eq!(again.out.trim_end(), bytes, "{}", text.out);
    assert_eq!(upload(&["--sheet-text", &again.out, kind]).out, text.out);
}

#[test]
fn bytes_come_back() {
    let folder = folder("sheet-back");
    let mut random = Random(17);
    for _ in 0..60 {
        let structure = random.structure();
        comes_back(&folder, "structure", &structure);
        let list = random.fields(4, &[2, 3]);
        if list[0] & 1 == 1 || list[0] < 4 {
            let kind = ["list", "strings"][random.below(2)];
            comes_back(&folder, kind, &list);
        }
        let map = random.fields(5, &[1, 3]);
        if map[0] & 4 == 4 || map[0] < 4 {
            comes_back(&folder, "map", &map);
        }
    }
}

#[test]
fn the_text_of_a_sheet() {
    let ran = upload(&[
        "--sheet-text",
        "0004 636F 7265 02 0602 6964 1b 01 72 05 72696e6773",
        "structure",
    ]);
    let said = "structure core\n  attribute id\n  flattened aggregate rings named r\n";
    assert_eq!((ran.status, ran.out.as_str()), (0, said));
    let ran = upload(&["--sheet-text", "00", "map"]);
    assert_eq!(ran.out, "map root\n");
    let sample = upload(&["--sheet-bytes", "samples/cores.sheet"]);
    let text = upload(&["--sheet-text", &sample.out, "structure"]).out;
    assert!(
        text.starts_with("structure upload\n  attribute team\n"),
        "{text}"
    );
}

#[test]
fn bytes_that_are_no_sheet() {
    for (hex, kind, said) in [
        ("0", "map", "a hexadecimal digit is missing"),
        ("0g", "map", "hexadecimal digits"),
        ("20", "map", "no sheet: its byte 0 is wrong"),
        ("", "list", "no sheet: its byte 0 is wrong"),
        ("00", "structure", "no sheet: its byte 1 is wrong"),
        ("00", "tree", "a structure, list, strings or map, not tree"),
    ] {
        let ran = upload(&["--sheet-text", hex, kind]);
        assert_eq!((ran.status, ran.out.as_str()), (2, ""));
        assert!(ran.err.contains(said), "{}", ran.err);
    }
}

/// Sheets with something wrong, and what is said of it behind the name of the file.
const WRONG: [(&str, &str); 31] = [
    ("", "1: no sheet is here"),
    ("# nothing\n", "1: no sheet is here"),
    (
        "\ntree a",
        "2: a sheet begins with structure, list, strings or map, not tree",
    ),
    ("structure", "1: the name of the sheet is missing"),
    ("structure \"\"", "1: the name of the sheet is empty"),
    (
        "structure a wrapped",
        "1: wrapped is not expected here, but shape, named,",
    ),
    ("structure a named", "1: the name behind named is missing"),
    (
        "structure a\n\nteam",
        "3: a member begins with attribute, flattened, aggregate or scalar, not team",
    ),
    (
        "structure a\nscalar",
        "2: the name of the member is missing",
    ),
    ("structure a\nscalar scalar b", "2: scalar stands twice"),
    (
        "structure a\nscalar aggregate b",
        "2: a scalar is no aggregate",
    ),
    (
        "structure a\nscalar b c",
        "2: c is not expected here, but named and by may follow",
    ),
    (
        "structure a\nscalar b by a",
        "2: only an aggregate is read by a sheet",
    ),
    ("structure a\naggregate b by c", "2: no sheet is named c"),
    (
        "structure a\naggregate b by",
        "2: the name behind by is missing",
    ),
    ("list a\nlist b\nlist a", "3: a second sheet is named a"),
    (
        "list a\nscalar b",
        "2: below a list stands item, not scalar",
    ),
    ("list a\nitem\nitem", "3: a list has one item line at most"),
    (
        "strings a\nitem b by a",
        "2: only an aggregate is read by a sheet",
    ),
    (
        "map a\nitem",
        "2: below a map stand key and value, not item",
    ),
    ("map a\nkey", "2: the name of the keys is missing"),
    ("map a\rkey -", "2: the name of the keys is none"),
    ("structure -", "1: the name of the sheet is none"),
    (
        "structure a\nscalar b named -",
        "2: the name behind named is none",
    ),
    (
        "map a\nkey b\nkey c",
        "3: a map has one key line and one value line at most",
    ),
    (
        "map a\nvalue\nvalue",
        "3: a map has one key line and one value line at most",
    ),
    (
        "map a\nvalue b by a",
        "2: only an aggregate is read by a sheet",
    ),
    ("list \"a", "1: the second quote mark is missing"),
    ("list \"a\"b", "1: white space is missing at a quote mark"),
    ("list \"\\n\"", "1: behind \\ stands \", \\ or x"),
    (
        "list \"\\x4\"",
        "1: behind \\x stand two hexadecimal digits",
    ),
];

fn is_wrong(folder: &Path, text: &str, said: &str) {
    let ran = bytes_of(folder, text);
    assert_eq!((ran.status, ran.out.as_str()), (2, ""), "{text}");
    let said = format!("sheet:{said}");
    assert!(ran.err.contains(&said), "{text}\n{}", ran.err);
}

#[test]
fn what_is_wrong_and_where() {
    let folder = folder("sheet-wrong");
    for (text, said) in WRONG {
        is_wrong(&folder, text, said);
    }
    let long = format!("list a\nitem {}", "n".repeat(256));
    is_wrong(
        &folder,
        &long,
        "2: the name of the items has 256 bytes, and 255 is the most",
    );
    let many = format!("structure a\n{}", "scalar b\n".repeat(65));
    is_wrong(&folder, &many, "1: 65 members, and 64 is the most");
    let odd = file(&folder, "odd", b"list a\nitem \xFF");
    let ran = upload(&["--sheet", odd.to_str().unwrap(), "samples/cores.xml"]);
    assert_eq!((ran.status, ran.out.as_str()), (2, ""));
    assert!(ran.err.contains("odd:2: not UTF-8"), "{}", ran.err);
}
