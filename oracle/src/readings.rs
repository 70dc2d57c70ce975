//! One reading by the Rust's deserializer, and what it handed out.

use crate::codec::{
    find_depth2_element_slice_by, XmlCodec, XmlCodecSettings, XmlDeserializer,
};
use crate::hex::hex;
use crate::numbers;
use aws_smithy_schema::serde::{SerdeError, ShapeDeserializer};

/// Flags: the sum of 1 validate_document, 2 validate_root_name,
/// 4 strict_collection_element_names.
pub fn codec(flags: &str, maximum: &str) -> Result<XmlCodec, String> {
    let flags: u8 = flags.parse().map_err(|_| "flags")?;
    if flags > 7 {
        return Err("flags".to_string());
    }
    Ok(XmlCodec::new(
        XmlCodecSettings::builder()
            .validate_document(flags & 1 != 0)
            .validate_root_name(flags & 2 != 0)
            .strict_collection_element_names(flags & 4 != 0)
            .max_depth(maximum.parse().map_err(|_| "maximum")?)
            .build(),
    ))
}

pub fn reading<'b>(
    codec: &XmlCodec,
    body: &'b [u8],
    depth: &str,
    read: impl FnOnce(&mut XmlDeserializer<'b>, &mut Vec<String>) -> Result<(), SerdeError>,
) -> Result<String, String> {
    use aws_smithy_schema::codec::Codec;
    let depth: u32 = depth.parse().map_err(|_| "depth")?;
    let mut reader = codec.create_deserializer(body);
    reader.oracle_set_depth(depth);
    let mut entries = Vec::new();
    let result = read(&mut reader, &mut entries);
    assert_eq!(reader.oracle_depth(), depth, "the depth is put back");
    // The groups come last, from a hash map, and are a set: give them by member.
    let groups = entries.iter().position(|entry| entry.starts_with("3,"));
    if let Some(groups) = groups {
        assert!(entries[groups..]
            .iter()
            .all(|entry| entry.starts_with("3,")));
        entries[groups..].sort_by_key(|entry| {
            let index = entry.split(',').nth(1).expect("an index");
            index.parse::<usize>().expect("a number")
        });
    }
    let mut line = match result {
        Ok(()) => "ok".to_string(),
        Err(error) => format!("refuse {}", numbers::of_serde(&error)),
    };
    for entry in entries {
        line.push(' ');
        line.push_str(&entry);
    }
    Ok(line)
}

/// What a consumer was handed, in document 01's form.
pub fn entry(
    body: &[u8],
    depth: &str,
    index: usize,
    key: &str,
    handed: &mut dyn ShapeDeserializer,
) -> String {
    // Only `XmlDeserializer` implements the trait in this program.
    let handed: *mut dyn ShapeDeserializer = handed;
    let handed: &XmlDeserializer<'_> = unsafe { &*(handed as *const XmlDeserializer<'_>) };
    let depth: u32 = depth.parse().expect("a depth");
    assert_eq!(
        handed.oracle_depth(),
        depth + 1,
        "what is handed out is one deeper"
    );
    let key = hex(key.as_bytes());
    match handed.oracle_handed() {
        (_, Some(Ok(text))) => format!("1,{index},{key},{}", hex(text.as_bytes())),
        (_, Some(Err(error))) => format!("4,{index},{key},{}", numbers::of_serde(error)),
        (input, None) => match place(body, input) {
            Some((start, length)) => format!("2,{index},{key},{start},{length}"),
            None => format!("3,{index},{key},{}", hex(input)),
        },
    }
}

/// Start and length of `part` in `body`, if it lies there.
pub fn place(body: &[u8], part: &[u8]) -> Option<(usize, usize)> {
    let (body_at, part_at) = (body.as_ptr() as usize, part.as_ptr() as usize);
    let inside = part_at >= body_at && part_at + part.len() <= body_at + body.len();
    inside.then(|| (part_at - body_at, part.len()))
}

/// Start and length of the root or its first child of that local name.
pub fn find(body: &[u8], name: &str) -> Option<(usize, usize)> {
    let part = find_depth2_element_slice_by(body, |local| local == name)?;
    Some(place(body, part).expect("a part of the body"))
}
