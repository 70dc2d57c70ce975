//! Pieces and groups: their rows are at hand, and are those that a tokenizer would make.
#![cfg(feature = "xmlparser")]

mod common;

use common::{body, Random, NAMES};
use falzheod::table::{from_tokens, Table};
use falzheod::{check, Entry, ListSheet, MapSheet, Member, Piece, Settings, Sheet};
use falzheod::{drain, CheckError, Limit, Row, StructSheet, Upload};

/// The piece's own rows, and those of its bytes checked afresh.
fn same_as_fresh(piece: Piece<'_>, depth: u32) {
    let upload = piece.upload();
    let fresh = check(piece.bytes()).unwrap().at_depth(depth);
    assert_eq!(upload, fresh, "{piece:?}");
    assert_eq!(drain(upload.body(), upload.rows(), upload.end()), Ok(()));
}

/// Every element of an upload, level by level; how many they are.
fn every_element(upload: &Upload<'_>, list: &ListSheet) -> usize {
    let reading = upload.read_list(list, &Settings::default());
    assert_eq!(reading.refusal(), None);
    let mut count = 0;
    for entry in reading.entries() {
        let Entry::Piece { piece, .. } = entry else {
            panic!("{entry:?}");
        };
        same_as_fresh(piece, upload.depth() + 1);
        count += 1 + every_element(&piece.upload(), list);
    }
    count
}

#[test]
fn the_pieces_of_the_sample() {
    let upload = check(include_bytes!("../../samples/cores.xml")).unwrap();
    let list = ListSheet::builder().build().unwrap();
    let starts = upload.rows().iter().filter(|row| row.kind == 1).count();
    assert_eq!(every_element(&upload, &list), starts - 1);
}

#[test]
fn the_pieces_of_random_bodies() {
    let list = ListSheet::builder().build().unwrap();
    let mut random = Random(7);
    for _ in 0..3_000 {
        let body = body(&mut random);
        let upload = check(body.as_bytes()).unwrap_or_else(|error| panic!("{body}: {error}"));
        every_element(&upload, &list);
    }
}

#[test]
fn maps_structures_and_groups_of_random_bodies() {
    let map = MapSheet::builder().aggregate_value().build().unwrap();
    let mut sheet = StructSheet::builder("r");
    for (index, name) in NAMES.iter().enumerate() {
        let member = Member::new(name).aggregate();
        sheet = sheet.member(if index % 2 == 0 {
            member.flattened()
        } else {
            member
        });
    }
    let sheet = sheet.build().unwrap();
    let mut random = Random(11);
    let (mut pieces, mut groups) = (0, 0);
    for _ in 0..3_000 {
        let body = body(&mut random);
        let upload = check(body.as_bytes()).unwrap();
        for by in [Sheet::from(&map), Sheet::from(&sheet)] {
            let reading = upload.read(by, &Settings::default());
            for entry in reading.entries() {
                match entry {
                    Entry::Piece { piece, .. } => {
                        pieces += 1;
                        same_as_fresh(piece, 1);
                    }
                    Entry::Group { group, .. } => {
                        groups += 1;
                        let siblings: Vec<&[u8]> = group.pieces().map(|p| p.bytes()).collect();
                        let bytes = [b"<__flat>", &siblings.concat()[..], b"</__flat>"].concat();
                        assert_eq!(group.bytes(), bytes);
                        let fresh = check(group.bytes()).unwrap().at_depth(1);
                        assert_eq!(group.upload(), Ok(fresh));
                        group.pieces().for_each(|piece| same_as_fresh(piece, 2));
                    }
                    Entry::Text { .. } | Entry::Failed { .. } => panic!("{entry:?}"),
                }
            }
        }
    }
    assert!(pieces > 1_000 && groups > 1_000, "{pieces} {groups}");
}

/// The rows of an element as crates/element finds them: from the first start row whose
/// local name stands after its place.
fn own_rows(upload: &Upload<'_>, place: u32) -> Vec<Row> {
    let rows = upload.rows();
    let first = rows
        .iter()
        .position(|row| row.kind == 1 && row.local_start > place)
        .unwrap();
    let (mut open, mut count) = (0, 0);
    loop {
        match rows[first + count].kind {
            1 => open += 1,
            4 | 5 => open -= 1,
            _ => {}
        }
        count += 1;
        if open == 0 {
            break;
        }
    }
    let minus = |start: u32, moves: bool| if moves { start - place } else { start };
    let moved = |row: &Row| Row {
        prefix_start: minus(row.prefix_start, row.prefix_len > 0),
        local_start: minus(row.local_start, [1, 2, 4].contains(&row.kind)),
        value_start: minus(row.value_start, row.value_len > 0),
        position: row.position - place,
        ..*row
    };
    rows[first..][..count].iter().map(moved).collect()
}

/// Tables of another tokenizer, which drops tokens and shortens spans: the pieces' rows
/// are those of crates/element, and pass the drain.
#[test]
fn the_pieces_of_other_tables() {
    let list = ListSheet::builder().build().unwrap();
    let mut random = Random(19);
    let mut pieces = 0;
    for _ in 0..3_000 {
        let body = body(&mut random);
        let Table { mut rows, end } = from_tokens(body.as_bytes());
        rows.retain(|row| ![2, 6, 7].contains(&row.kind) || random.below(3) > 0);
        for row in &mut rows {
            match random.below(8) {
                0 if row.value_len > 1 => row.value_len -= 1,
                1 if row.value_len == 1 => (row.value_start, row.value_len) = (0, 0),
                2 if row.kind == 7 => row.position -= 1,
                _ => {}
            }
        }
        let Ok(upload) = Upload::of_table(body.as_bytes(), rows, end) else {
            continue;
        };
        let reading = upload.read_list(&list, &Settings::default());
        for entry in reading.entries() {
            let Entry::Piece { piece, .. } = entry else {
                panic!("{entry:?}");
            };
            pieces += 1;
            let own = piece.upload();
            assert_eq!(
                own.rows(),
                own_rows(&upload, piece.range().start as u32),
                "{body}"
            );
            assert_eq!(drain(own.body(), own.rows(), own.end()), Ok(()), "{body}");
        }
    }
    assert!(pieces > 3_000, "{pieces}");
}

#[test]
fn find_gives_the_upload_or_a_child() {
    let mut random = Random(13);
    for _ in 0..2_000 {
        let body = body(&mut random);
        let upload = check(body.as_bytes()).unwrap();
        for name in NAMES {
            match upload.find(name) {
                None => {}
                Some(found) if found.depth() == 0 => assert_eq!(found, upload),
                Some(found) => assert_eq!(found, check(found.body()).unwrap().at_depth(1)),
            }
        }
    }
}

#[test]
fn the_root_of_an_unwrapped_structure() {
    let sheet = StructSheet::builder("r")
        .member(Member::new("r").aggregate())
        .unwrapped()
        .build()
        .unwrap();
    let upload = check(b"<!-- c --> <p:r a='1'><b/></p:r> ").unwrap();
    let reading = upload.read_struct(&sheet, &Settings::default());
    let Some(Entry::Piece { piece, .. }) = reading.entries().next() else {
        panic!();
    };
    assert_eq!(piece.as_str(), Ok("<p:r a='1'><b/></p:r>"));
    assert_eq!(piece.range(), 11..32);
    same_as_fresh(piece, 1);
}

/// A group has longer tags than an upload may have: its siblings are pieces all the same.
#[test]
fn a_group_past_the_limit() {
    let sheet = StructSheet::builder("r")
        .member(Member::new("n").flattened().aggregate())
        .build()
        .unwrap();
    let body = format!("<r><n>{}</n></r>", "t".repeat(65_536 - 14));
    let upload = check(body.as_bytes()).unwrap();
    let reading = upload.read_struct(&sheet, &Settings::default());
    let Some(Entry::Group { group, .. }) = reading.entries().next() else {
        panic!();
    };
    assert_eq!(group.bytes().len(), 65_536 + 10);
    let refused = group.upload().unwrap_err();
    let limit = Limit::Bytes;
    assert!(matches!(refused, CheckError::TooLarge { limit: passed, .. } if passed == limit));
    assert_eq!(group.pieces().len(), 1);
    let text = group
        .pieces()
        .next()
        .unwrap()
        .upload()
        .whole_text()
        .unwrap();
    assert_eq!(text.as_bytes().len(), 65_522);
}

#[test]
fn depth_is_counted_from_piece_to_piece() {
    let list = ListSheet::builder().build().unwrap();
    let settings = Settings {
        max_depth: 2,
        ..Settings::default()
    };
    let upload = check(b"<a><b><c><d/></c></b></a>").unwrap();
    let first = upload.read_list(&list, &settings);
    let Some(Entry::Piece { piece: b, .. }) = first.entries().next() else {
        panic!();
    };
    let b = b.upload();
    let second = b.read_list(&list, &settings);
    let Some(Entry::Piece { piece: c, .. }) = second.entries().next() else {
        panic!();
    };
    let c = c.upload();
    assert_eq!(c.depth(), 2);
    assert_eq!(
        c.read_list(&list, &settings).refusal(),
        Some(falzheod::Refusal::Depth)
    );
}
