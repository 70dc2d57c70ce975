//! The readings of an upload: room that suffices, refusals with what was written, entries.
#![cfg(feature = "xmlparser")]

mod common;

use common::{body, Random, NAMES};
use falzheod::{check, lent, Entry, ListSheet, MapSheet, Member, Refusal, Settings, Sheet};
use falzheod::{StructSheet, Upload};

const LENIENT: Settings = Settings {
    validate_document: false,
    validate_root_name: false,
    strict_collection_element_names: false,
    max_depth: 128,
};
const STRICT: Settings = Settings {
    validate_document: true,
    validate_root_name: true,
    ..LENIENT
};

/// The reading of the library with more room than any body asks for.
fn lent_reading(
    upload: &Upload<'_>,
    sheet: Sheet<'_>,
    settings: Settings,
) -> (Option<Refusal>, Vec<lent::Entry>, Vec<u8>) {
    let mut entries = vec![lent::Entry::default(); 10_000];
    let mut texts = vec![0; 5_000_000];
    let (lent, bytes, depth) = (upload.lent(), sheet.as_bytes(), upload.depth());
    let done = match sheet {
        Sheet::Struct(_) => {
            lent::read_struct(lent, bytes, settings, depth, &mut entries, &mut texts)
        }
        Sheet::List(_) => lent::read_list(lent, bytes, settings, depth, &mut entries),
        Sheet::StringList(_) => {
            lent::read_string_list(lent, bytes, settings, depth, &mut entries, &mut texts)
        }
        Sheet::Map(_) => lent::read_map(lent, bytes, settings, depth, &mut entries, &mut texts),
    };
    let (written, refusal) = match done {
        Ok(written) => (written, None),
        Err(refused) => (refused.written, Some(refused.refusal)),
    };
    entries.truncate(written.count);
    texts.truncate(written.length);
    (refusal, entries, texts)
}

/// The reading of the crate gives what the library does.
fn same_as_lent(upload: &Upload<'_>, sheet: Sheet<'_>, settings: Settings) -> Option<Refusal> {
    let reading = upload.read(sheet, &settings);
    let (refusal, raw, texts) = lent_reading(upload, sheet, settings);
    assert_ne!(refusal, Some(Refusal::NoRoom));
    assert_eq!(reading.refusal(), refusal);
    assert_eq!(reading.entries().len(), raw.len());
    for (entry, raw) in reading.entries().zip(raw) {
        assert_eq!(entry.member(), raw.member as usize);
        let part = |of: &[u8], start: u32, len: u32| of[start as usize..][..len as usize].to_vec();
        let (kind, bytes) = match &entry {
            Entry::Text { .. } => (1, part(&texts, raw.start, raw.len)),
            Entry::Piece { .. } => (2, part(upload.body(), raw.start, raw.len)),
            Entry::Group { .. } => (3, part(&texts, raw.start, raw.len)),
            Entry::Failed { refusal, .. } => {
                assert_eq!((refusal.number(), 0), (raw.start, raw.len));
                (4, Vec::new())
            }
        };
        assert_eq!((kind, entry.bytes()), (raw.kind, &bytes[..]));
        let key = part(&texts, raw.key_start, raw.key_len);
        let expected = matches!(sheet, Sheet::Map(_)).then_some(&key[..]);
        assert_eq!(entry.key().map(|key| key.as_bytes()), expected);
    }
    refusal
}

fn random_sheet(random: &mut Random) -> StructSheet {
    let mut sheet = StructSheet::builder("a");
    if random.below(8) == 0 {
        sheet = sheet.unwrapped();
    }
    for _ in 0..random.below(8) {
        let mut member = Member::new(random.pick(&NAMES));
        for set in [Member::attribute, Member::flattened, Member::aggregate] {
            if random.below(2) == 0 {
                member = set(member);
            }
        }
        sheet = sheet.member(match random.below(4) {
            0 => member.xml_name(random.pick(&["a", "b", "p:b", "id"])),
            1 if member.is_attribute() => Member::nameless().attribute(),
            _ => member,
        });
    }
    sheet.build().unwrap()
}

#[test]
fn readings_are_the_librarys() {
    let list = ListSheet::builder().item("a").build().unwrap();
    let maps = [
        MapSheet::builder().build().unwrap(),
        MapSheet::builder()
            .aggregate_value()
            .flattened()
            .build()
            .unwrap(),
        MapSheet::builder()
            .key_xml_name("a")
            .value_xml_name("b")
            .build()
            .unwrap(),
    ];
    let mut random = Random(17);
    let mut refused = 0;
    for _ in 0..400 {
        let body = body(&mut random);
        let upload = check(body.as_bytes()).unwrap();
        let sheet = random_sheet(&mut random);
        let lists = [
            Sheet::from(&list),
            Sheet::StringList(&list),
            Sheet::from(&sheet),
        ];
        let strict = Settings {
            strict_collection_element_names: true,
            ..STRICT
        };
        for settings in [LENIENT, strict] {
            for sheet in lists.into_iter().chain(maps.iter().map(Sheet::from)) {
                let refusal = same_as_lent(&upload, sheet, settings);
                refused += usize::from(refusal.is_some());
                let met = [None, Some(Refusal::RootName), Some(Refusal::ElementInText)];
                assert!(met.contains(&refusal), "{refusal:?}");
            }
        }
    }
    assert!(refused > 100, "{refused}");
}

/// Sapwood notes and scan notes come in one order, whatever the upload's; and in too
/// little room the groups before the one that does not fit stay.
#[test]
fn groups_by_rising_member_index() {
    let sheet = StructSheet::builder("core")
        .member(Member::new("sapwood").flattened().aggregate())
        .member(Member::new("bark"))
        .member(Member::new("scan").flattened().aggregate())
        .build()
        .unwrap();
    let sapwood = "<__flat><sapwood>9</sapwood><sapwood>7</sapwood></__flat>";
    let scan = "<__flat><scan>a</scan></__flat>";
    for children in [
        "<sapwood>9</sapwood><sapwood>7</sapwood><bark/><scan>a</scan>",
        "<scan>a</scan><bark/><sapwood>9</sapwood><sapwood>7</sapwood>",
        "<sapwood>9</sapwood><scan>a</scan><sapwood>7</sapwood><bark/>",
    ] {
        let body = format!("<core>{children}</core>");
        let upload = check(body.as_bytes()).unwrap();
        let reading = upload.read_struct(&sheet, &STRICT);
        let all: Vec<_> = reading
            .entries()
            .map(|entry| (entry.member(), entry.bytes().to_vec()))
            .collect();
        let expected = [(1, ""), (0, sapwood), (2, scan)];
        assert_eq!(all, expected.map(|(n, bytes)| (n, bytes.into())));
        for room in 0..=sapwood.len() + scan.len() {
            let mut entries = [lent::Entry::default(); 3];
            let mut texts = vec![b'?'; room];
            let (lent, bytes) = (upload.lent(), sheet.as_bytes());
            let done = lent::read_struct(lent, bytes, STRICT, 0, &mut entries, &mut texts);
            let (kept, used) = match room {
                _ if room < sapwood.len() => (0, 0),
                _ if room < sapwood.len() + scan.len() => (1, sapwood.len()),
                _ => (2, room),
            };
            let refused = done.err().map(|refused| (refused.refusal, refused.written));
            let written = lent::Written {
                count: 1 + kept,
                length: used,
            };
            assert_eq!(refused, (kept < 2).then_some((Refusal::NoRoom, written)));
            let expected = [sapwood, scan][..kept].concat() + &"?".repeat(room - used);
            assert_eq!(texts, expected.as_bytes());
            let members = entries.map(|entry| entry.member);
            assert_eq!(members, [[1, 0, 0], [1, 0, 0], [1, 0, 2]][kept]);
        }
    }
}

/// Bodies and sheets that ask for as much room as there can be.
#[test]
fn room_suffices_at_the_extremes() {
    let members = |count: usize, make: &dyn Fn(usize) -> Member| {
        let sheet = (0..count).fold(StructSheet::builder("r"), |sheet, n| sheet.member(make(n)));
        sheet.build().unwrap()
    };
    // 64 attribute members that all ask for one long attribute
    let body = format!("<r x='{}'/>", "v".repeat(65_527));
    let upload = check(body.as_bytes()).unwrap();
    let sheet = members(64, &|_| Member::new("x").attribute());
    assert_eq!(same_as_lent(&upload, (&sheet).into(), STRICT), None);
    let reading = upload.read_struct(&sheet, &STRICT);
    assert_eq!(
        reading.entries().map(|e| e.bytes().len()).sum::<usize>(),
        64 * 65_527
    );
    // the same, with children that fill the rest of the body and the table
    let mut body = format!("<r x='{}'>", "v".repeat(30_000));
    while body.len() < 65_500 {
        body += "<x>tttttttttttttttttttt</x>";
    }
    body += "</r>";
    let upload = check(body.as_bytes()).unwrap();
    assert_eq!(same_as_lent(&upload, (&sheet).into(), STRICT), None);
    // 64 groups of one empty sibling each, and of many
    let sheet = members(64, &|n| {
        Member::new(format!("n{n}")).flattened().aggregate()
    });
    for times in [1, 63] {
        let children = |n: usize| format!("<n{n}/>").repeat(times);
        let body = format!("<r>{}</r>", (0..64).map(children).collect::<String>());
        let upload = check(body.as_bytes()).unwrap();
        assert_eq!(same_as_lent(&upload, (&sheet).into(), STRICT), None);
        let reading = upload.read_struct(&sheet, &STRICT);
        assert_eq!(reading.entries().len(), 64);
    }
    // attributes that are flattened aggregates too: a text each, and one group
    let sheet = members(64, &|_| {
        Member::new("x").attribute().flattened().aggregate()
    });
    let body = format!("<r x='{}'>{}</r>", "v".repeat(20_000), "<x/>".repeat(4_000));
    let upload = check(body.as_bytes()).unwrap();
    assert_eq!(same_as_lent(&upload, (&sheet).into(), STRICT), None);
    let reading = upload.read_struct(&sheet, &STRICT);
    assert_eq!(reading.entries().len(), 65);
    // as many items as there are rows for
    let list = ListSheet::builder().build().unwrap();
    let body = format!("<r>{}</r>", "<b/>".repeat(4_094));
    let upload = check(body.as_bytes()).unwrap();
    for sheet in [Sheet::List(&list), Sheet::StringList(&list)] {
        assert_eq!(same_as_lent(&upload, sheet, STRICT), None);
    }
    assert_eq!(upload.read_list(&list, &STRICT).entries().len(), 4_094);
    // and entries of a map, with empty names, keys and values
    let map = MapSheet::builder()
        .key_xml_name("k")
        .value_xml_name("v")
        .build()
        .unwrap();
    let body = format!("<r>{}</r>", "<e><k/><v/></e>".repeat(1_169));
    let upload = check(body.as_bytes()).unwrap();
    assert_eq!(same_as_lent(&upload, (&map).into(), STRICT), None);
    let text = "<e><k>kkkkkkkkkkkkkkkkkkkkkkkk</k><v>vvvvvvvvvvvvvvvvvvvvvvvv</v></e>";
    let body = format!("<r>{}</r>", text.repeat(740));
    let upload = check(body.as_bytes()).unwrap();
    assert_eq!(same_as_lent(&upload, (&map).into(), STRICT), None);
}

#[test]
fn a_refusal_keeps_what_was_written() {
    let list = ListSheet::builder().build().unwrap();
    let upload = check(b"<u><s>one</s><s>two</s><s><b/></s><s>four</s></u>").unwrap();
    let reading = upload.read_string_list(&list, &STRICT);
    assert_eq!(reading.refusal(), Some(Refusal::ElementInText));
    assert_eq!(reading.finished().unwrap_err(), Refusal::ElementInText);
    let texts: Vec<_> = reading.entries().map(|e| e.bytes().to_vec()).collect();
    assert_eq!(texts, [b"one".to_vec(), b"two".to_vec()]);
}

#[test]
fn a_scalar_that_fails_is_an_entry() {
    let sheet = StructSheet::builder("core")
        .member(Member::new("bark"))
        .member(Member::new("id"))
        .build()
        .unwrap();
    let upload = check(b"<core><bark><b/></bark><id>7</id></core>").unwrap();
    let reading = upload.read_struct(&sheet, &STRICT);
    assert_eq!(reading.refusal(), None);
    let entries: Vec<_> = reading.entries().collect();
    assert!(matches!(
        entries[0],
        Entry::Failed {
            member: 0,
            refusal: Refusal::ElementInText
        }
    ));
    assert_eq!((entries[0].bytes(), entries[0].as_str()), (&b""[..], None));
    assert_eq!((entries[1].member(), entries[1].as_str()), (1, Some("7")));
}

#[test]
fn scalars_at_the_edges() {
    let settings = STRICT;
    let integer = |text: &str| {
        let body = format!("<w>{text}</w>");
        check(body.as_bytes()).unwrap().read_integer(&settings)
    };
    assert_eq!(integer("2147483647"), Ok(i32::MAX));
    assert_eq!(integer("2147483648"), Err(Refusal::NotInteger));
    assert_eq!(integer("-2147483648"), Ok(i32::MIN));
    assert_eq!(integer("+5"), Ok(5));
    assert_eq!(integer(" 5"), Err(Refusal::NotInteger));
    assert_eq!(integer("<b/>"), Err(Refusal::ElementInText));
    let long = format!("<w>{}</w>", "t".repeat(65_529));
    let text = check(long.as_bytes())
        .unwrap()
        .read_string(&settings)
        .unwrap();
    assert_eq!(text.as_bytes().len(), 65_529);
    let text = check(long.as_bytes()).unwrap().whole_text().unwrap();
    assert_eq!(text.into_bytes().len(), 65_529);
}

/// A table of another tokenizer may cut a character: its text does not come as a `str`.
#[test]
fn texts_that_are_not_utf8() {
    let body = "<s>é</s>".as_bytes();
    let mut table = falzheod::table::from_tokens(body);
    table.rows[2].value_len = 1;
    let upload = Upload::of_table(body, table.rows, table.end).unwrap();
    let text = upload.read_string(&STRICT).unwrap();
    assert_eq!(text.as_bytes(), b"\xC3");
    assert!(text.as_str().is_err());
    let list = ListSheet::builder().build().unwrap();
    let body = "<l><s>é</s></l>".as_bytes();
    let mut table = falzheod::table::from_tokens(body);
    table.rows[4].value_len = 1;
    let upload = Upload::of_table(body, table.rows, table.end).unwrap();
    let reading = upload.read_string_list(&list, &STRICT);
    let entry = reading.entries().next().unwrap();
    assert_eq!((entry.bytes(), entry.as_str()), (&b"\xC3"[..], None));
}
