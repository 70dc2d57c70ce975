//! Uploads of tables that another tokenizer made: the crate without its feature.

use falzheod::{CheckError, Entry, Limit, ListSheet, Place, Row, Settings, Upload};

fn named(kind: u32, local_start: u32, position: u32) -> Row {
    Row {
        kind,
        local_start,
        local_len: 1,
        position,
        ..Row::default()
    }
}

fn plain(kind: u32, position: u32) -> Row {
    Row {
        kind,
        position,
        ..Row::default()
    }
}

#[test]
fn an_upload_is_read() {
    let body = b"<r><b/></r>";
    let rows = [
        named(1, 1, 2),
        plain(3, 3),
        named(1, 4, 5),
        plain(5, 7),
        named(4, 9, 11),
    ];
    let upload = Upload::of_table(body, &rows[..], 11).unwrap();
    let list = ListSheet::builder().build().unwrap();
    let reading = upload.read_list(&list, &Settings::default());
    let Some(Entry::Piece { piece, .. }) = reading.entries().next() else {
        panic!();
    };
    let own = piece.upload();
    assert_eq!(own.rows(), [named(1, 1, 2), plain(5, 4)]);
    assert_eq!((own.body(), own.end(), own.depth()), (&b"<b/>"[..], 4, 1));
    assert_eq!(upload.find("b"), Some(own));
    assert_eq!(upload.lent().rows.len(), 40);
}

/// Its place is the drain's, and no more of it is shown than stands in the text.
#[test]
fn a_bad_reference() {
    let body = b"<a>&lt;1&</a>";
    let text = Row {
        value_start: 3,
        value_len: 6,
        ..plain(6, 9)
    };
    let rows = [named(1, 1, 2), plain(3, 3), text, named(4, 11, 13)];
    let reference = CheckError::Reference {
        at: Place::of(body, 8),
        reference: "&".to_string(),
    };
    assert_eq!(Upload::of_table(body, &rows[..], 13), Err(reference));
}

#[test]
fn what_is_no_upload() {
    let refused = |body: &[u8], rows: &[Row], end: u32| {
        Upload::of_table(body, rows, end).map(|_| ()).unwrap_err()
    };
    assert_eq!(refused(b"", &[], 0), CheckError::Empty);
    let at = |body: &[u8], byte| Place::of(body, byte);
    let place = at(b"\xFF", 0);
    assert_eq!(refused(b"\xFF", &[], 0), CheckError::NotUtf8 { at: place });
    let place = at(b"<a>", 3);
    assert_eq!(refused(b"<a>", &[], 0), CheckError::NoElement { at: place });
    assert_eq!(refused(b"<a>", &[plain(9, 3)], 3), CheckError::Table);
    // a token error that no words are known of
    let rows = [named(1, 1, 2), plain(3, 3), plain(8, 4)];
    let token = CheckError::Token {
        at: at(b"<a><", 3),
        words: "a token error".to_string(),
    };
    assert_eq!(refused(b"<a><", &rows, 4), token);
    // the limits
    let many = vec![plain(7, 0); 8_193];
    let too_large = |limit, byte| CheckError::TooLarge {
        limit,
        at: Place {
            byte,
            line: 1,
            column: byte + 1,
        },
    };
    assert_eq!(refused(b"<a>", &many, 3), too_large(Limit::Rows, 0));
    let long = [b'a'; 65_537];
    assert_eq!(refused(&long, &[], 0), too_large(Limit::Bytes, 65_536));
    let open: Vec<Row> = (0..257)
        .flat_map(|n| [named(1, 3 * n + 1, 3 * n + 2), plain(3, 3 * n + 3)])
        .collect();
    let deep = "<a>".repeat(257);
    assert_eq!(
        refused(deep.as_bytes(), &open, 771),
        too_large(Limit::Open, 768)
    );
}
