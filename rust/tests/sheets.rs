//! Sheets: none that is built or parsed is broken, and what is not parsed the library
//! refuses with 2.

use falzheod::lent::{self, Lent};
use falzheod::{ListSheet, MapSheet, Member, Refusal, Settings, SheetError, StructSheet};

/// `<r/>` and its rows.
const ROWS: [u32; 16] = [1, 0, 0, 1, 1, 0, 0, 2, 5, 0, 0, 0, 0, 0, 0, 4];
const BODY: Lent<'static> = Lent {
    body: b"<r/>",
    rows: &ROWS,
    end: 4,
};

const SETTINGS: Settings = Settings {
    validate_document: true,
    validate_root_name: false,
    strict_collection_element_names: false,
    max_depth: 128,
};

fn is_broken<T>(read: Result<T, lent::Refused>) -> bool {
    matches!(read, Err(refused) if refused.refusal == Refusal::Sheet)
}

/// The library and the crate agree on which bytes are sheets; and a parsed sheet has
/// the bytes that it was parsed from.
fn agree(bytes: &[u8]) {
    let structure = lent::read_struct(BODY, bytes, SETTINGS, 0, &mut [], &mut []);
    match StructSheet::parse(bytes) {
        Ok(sheet) => assert_eq!(sheet.as_bytes(), bytes),
        Err(error) => assert!(matches!(error, SheetError::Broken { .. })),
    }
    assert_eq!(
        StructSheet::parse(bytes).is_err(),
        is_broken(structure),
        "{bytes:?}"
    );
    let list = lent::read_list(BODY, bytes, SETTINGS, 0, &mut []);
    assert_eq!(
        ListSheet::parse(bytes).is_err(),
        is_broken(list),
        "{bytes:?}"
    );
    let map = lent::read_map(BODY, bytes, SETTINGS, 0, &mut [], &mut []);
    assert_eq!(MapSheet::parse(bytes).is_err(), is_broken(map), "{bytes:?}");
}

#[test]
fn every_short_sheet() {
    fn longer(bytes: &mut Vec<u8>, left: usize) {
        agree(bytes);
        for byte in (0..=5).chain([8, 9, 12, 15, 16, 18, 20, 28, 31, 32, 64, 65, 255]) {
            if left > 0 {
                bytes.push(byte);
                longer(bytes, left - 1);
                bytes.pop();
            }
        }
    }
    longer(&mut Vec::new(), 4);
    for byte in 0..=255 {
        agree(&[byte]);
        agree(&[byte, 1, 1]);
        agree(&[0, 1, 1, byte]);
        agree(&[0, 1, 1, 1, byte]);
        agree(&[&[0, 1, 1, byte], &[0; 64][..]].concat());
        agree(&[&[0, byte][..], &[7; 255]].concat());
        agree(&[&[0, byte][..], &[7; 255], &[0]].concat());
    }
}

/// Every combination of a structure's and of a member's bits.
#[test]
fn structures_there_and_back() {
    for bits in 0..16u8 {
        for member_bits in 0..32u8 {
            let stands = |bit: u8| bits >> bit & 1 == 1;
            let of_member = |bit: u8| member_bits >> bit & 1 == 1;
            let mut member = if of_member(1) {
                Member::new("m")
            } else {
                Member::nameless()
            };
            let mut sheet = StructSheet::builder("shape");
            let mut bytes = vec![bits];
            if stands(0) {
                sheet = sheet.xml_name("x:x");
                bytes.extend(b"\x03x:x");
            }
            if stands(1) {
                sheet = sheet.original_name("O");
                bytes.extend(b"\x01O");
            }
            if stands(2) {
                sheet = sheet.member_name(b"\xFF");
                bytes.extend(b"\x01\xFF");
            }
            if stands(3) {
                sheet = sheet.unwrapped();
            }
            bytes.extend(b"\x05shape\x02\x02\x01f");
            bytes.push(member_bits);
            if of_member(0) {
                member = member.xml_name("X");
                bytes.extend(b"\x01X");
            }
            if of_member(1) {
                bytes.extend(b"\x01m");
            }
            for (bit, set) in [(2, Member::attribute as fn(Member) -> Member)]
                .into_iter()
                .chain([(3, Member::flattened as _), (4, Member::aggregate as _)])
            {
                if of_member(bit) {
                    member = set(member);
                }
            }
            let sheet = sheet
                .member(Member::new("f"))
                .member(member)
                .build()
                .unwrap();
            assert_eq!(sheet.as_bytes(), bytes);
            agree(&bytes);
            let back = StructSheet::parse(&bytes).unwrap();
            assert_eq!(back, sheet);
            let last = &back.members()[1];
            assert_eq!(last.is_attribute(), of_member(2));
            assert_eq!(last.is_flattened(), of_member(3));
            assert_eq!(last.is_aggregate(), of_member(4));
            assert_eq!(last.name_in_xml(), of_member(0).then_some(&b"X"[..]));
            assert_eq!(last.own_name(), of_member(1).then_some(&b"m"[..]));
            assert_eq!(back.is_unwrapped(), stands(3));
        }
    }
}

#[test]
fn lists_and_maps_there_and_back() {
    let list = ListSheet::builder()
        .item("m")
        .item_xml_name("x")
        .flattened()
        .build();
    let list = list.unwrap();
    assert_eq!(list.as_bytes(), b"\x0F\x01x\x01m");
    assert_eq!(ListSheet::parse(list.as_bytes()), Ok(list));
    let map = MapSheet::builder()
        .flattened()
        .key_xml_name("k")
        .value_xml_name("v")
        .aggregate_value()
        .build()
        .unwrap();
    assert_eq!(map.as_bytes(), b"\x1F\x01k\x01v");
    assert_eq!(MapSheet::parse(map.as_bytes()), Ok(map));
    for bits in [1, 5, 4, 20, 2, 0] {
        if let Ok(list) = ListSheet::parse(&[bits]) {
            assert_eq!(list.as_bytes(), [bits]);
        }
        if let Ok(map) = MapSheet::parse(&[bits]) {
            assert_eq!(map.as_bytes(), [bits]);
        }
    }
}

#[test]
fn names_and_members_at_the_edges() {
    let name = |length: usize| "n".repeat(length);
    let sheet = StructSheet::builder(name(255)).build().unwrap();
    agree(sheet.as_bytes());
    let long = |field, member| {
        let length = 256;
        SheetError::LongName {
            field,
            member,
            length,
        }
    };
    let error = StructSheet::builder(name(256)).build().unwrap_err();
    assert_eq!(error, long("shape name", None));
    let member = Member::new("m").xml_name(name(256));
    let two = StructSheet::builder("r")
        .member(Member::new("a"))
        .member(member);
    assert_eq!(two.build().unwrap_err(), long("XML name", Some(1)));
    let error = ListSheet::builder().item(name(256)).build().unwrap_err();
    assert_eq!(error, long("member name", None));
    let error = MapSheet::builder().value_xml_name("").build().unwrap_err();
    assert_eq!(error.to_string(), "the value XML name is empty");
    let of = |count: usize| {
        let empty = StructSheet::builder("r");
        let full = (0..count).fold(empty, |sheet, _| sheet.member(Member::new("m")));
        full.build()
    };
    agree(of(64).unwrap().as_bytes());
    let error = of(65).unwrap_err();
    assert_eq!(error, SheetError::ManyMembers { count: 65 });
    assert_eq!(error.to_string(), "65 members, and 64 is the most");
}

#[test]
fn where_bytes_are_broken() {
    let broken = |bytes: &[u8]| match StructSheet::parse(bytes) {
        Err(SheetError::Broken { byte }) => byte,
        other => panic!("{other:?}"),
    };
    assert_eq!(broken(b""), 0);
    assert_eq!(broken(b"\x10\x01r\x00"), 0);
    assert_eq!(broken(b"\x00\x00"), 1);
    assert_eq!(broken(b"\x00\x02r"), 3);
    assert_eq!(broken(b"\x00\x01r\x41"), 3);
    assert_eq!(broken(b"\x00\x01r\x01\x20"), 4);
    assert_eq!(broken(b"\x00\x01r\x00\x00"), 4);
    let error = SheetError::Broken { byte: 4 };
    assert_eq!(error.to_string(), "no sheet: its byte 4 is wrong");
}
