//! Sheets (document 01, "Sheets and entries") become schemas.
//!
//! Each decoder answers `Ok(None)` for a broken sheet (number 2), and `Err` for
//! a name that is not UTF-8, which document 01 allows and the Rust's `&str`
//! cannot hold.

use aws_smithy_schema::{Schema, XmlName};

pub struct Member {
    xml_name: Option<String>,
    member_name: Option<String>,
    attribute: bool,
    flattened: bool,
    aggregate: bool,
}

pub struct Structure {
    xml_name: Option<String>,
    original_name: Option<String>,
    member_name: Option<String>,
    unwrapped: bool,
    shape_name: String,
    members: Vec<Member>,
}

pub struct List {
    member: Option<Member>,
    flattened: bool,
}

pub struct Map {
    flattened: bool,
    key_xml_name: Option<String>,
    value: Option<Member>,
}

struct Bytes<'a> {
    bytes: &'a [u8],
    at: usize,
}

enum Stop {
    Broken,
    NotUtf8,
}

impl Bytes<'_> {
    fn byte(&mut self) -> Result<u8, Stop> {
        let byte = *self.bytes.get(self.at).ok_or(Stop::Broken)?;
        self.at += 1;
        Ok(byte)
    }
    fn bits(&mut self, count: u32) -> Result<u8, Stop> {
        let bits = self.byte()?;
        if bits >> count != 0 {
            return Err(Stop::Broken);
        }
        Ok(bits)
    }
    fn name(&mut self) -> Result<String, Stop> {
        let length = self.byte()? as usize;
        if length == 0 || self.at + length > self.bytes.len() {
            return Err(Stop::Broken);
        }
        let name = &self.bytes[self.at..self.at + length];
        self.at += length;
        String::from_utf8(name.to_vec()).map_err(|_| Stop::NotUtf8)
    }
    fn name_if(&mut self, stands: bool) -> Result<Option<String>, Stop> {
        if stands {
            Ok(Some(self.name()?))
        } else {
            Ok(None)
        }
    }
    fn end(&self) -> Result<(), Stop> {
        if self.at == self.bytes.len() {
            Ok(())
        } else {
            Err(Stop::Broken)
        }
    }
}

fn settle<T>(result: Result<T, Stop>) -> Result<Option<T>, String> {
    match result {
        Ok(sheet) => Ok(Some(sheet)),
        Err(Stop::Broken) => Ok(None),
        Err(Stop::NotUtf8) => Err("name".to_string()),
    }
}

pub fn structure(sheet: &[u8]) -> Result<Option<Structure>, String> {
    let mut from = Bytes {
        bytes: sheet,
        at: 0,
    };
    let decode = |from: &mut Bytes<'_>| -> Result<Structure, Stop> {
        let bits = from.bits(4)?;
        let xml_name = from.name_if(bits & 1 != 0)?;
        let original_name = from.name_if(bits & 2 != 0)?;
        let member_name = from.name_if(bits & 4 != 0)?;
        let unwrapped = bits & 8 != 0;
        let shape_name = from.name()?;
        let count = from.byte()?;
        if count > 64 {
            return Err(Stop::Broken);
        }
        let mut members = Vec::new();
        for _ in 0..count {
            let bits = from.bits(5)?;
            members.push(Member {
                xml_name: from.name_if(bits & 1 != 0)?,
                member_name: from.name_if(bits & 2 != 0)?,
                attribute: bits & 4 != 0,
                flattened: bits & 8 != 0,
                aggregate: bits & 16 != 0,
            });
        }
        from.end()?;
        Ok(Structure {
            xml_name,
            original_name,
            member_name,
            unwrapped,
            shape_name,
            members,
        })
    };
    settle(decode(&mut from))
}

pub fn list(sheet: &[u8]) -> Result<Option<List>, String> {
    let mut from = Bytes {
        bytes: sheet,
        at: 0,
    };
    let decode = |from: &mut Bytes<'_>| -> Result<List, Stop> {
        let bits = from.bits(4)?;
        let has_member = bits & 1 != 0;
        if !has_member && bits & 12 != 0 {
            return Err(Stop::Broken);
        }
        let xml_name = from.name_if(bits & 4 != 0)?;
        let member_name = from.name_if(bits & 8 != 0)?;
        from.end()?;
        Ok(List {
            member: has_member.then_some(Member {
                xml_name,
                member_name,
                attribute: false,
                flattened: false,
                aggregate: false,
            }),
            flattened: bits & 2 != 0,
        })
    };
    settle(decode(&mut from))
}

pub fn map(sheet: &[u8]) -> Result<Option<Map>, String> {
    let mut from = Bytes {
        bytes: sheet,
        at: 0,
    };
    let decode = |from: &mut Bytes<'_>| -> Result<Map, Stop> {
        let bits = from.bits(5)?;
        let has_value = bits & 4 != 0;
        if !has_value && bits & 24 != 0 {
            return Err(Stop::Broken);
        }
        let key_xml_name = from.name_if(bits & 2 != 0)?;
        let value_xml_name = from.name_if(bits & 8 != 0)?;
        from.end()?;
        Ok(Map {
            flattened: bits & 1 != 0,
            key_xml_name,
            value: has_value.then_some(Member {
                xml_name: value_xml_name,
                member_name: None,
                attribute: false,
                flattened: false,
                aggregate: bits & 16 != 0,
            }),
        })
    };
    settle(decode(&mut from))
}

fn xml_name(name: &Option<String>) -> Option<XmlName<'_>> {
    name.as_deref().map(XmlName)
}

impl Member {
    fn schema(&self, index: Option<usize>) -> Schema<'_> {
        Schema {
            xml_name: xml_name(&self.xml_name),
            member_name: self.member_name.as_deref(),
            member_index: index,
            aggregate: self.aggregate,
            xml_attribute: self.attribute,
            xml_flattened: self.flattened,
            ..Schema::default()
        }
    }
}

impl Structure {
    pub fn with_schema<R>(&self, f: impl FnOnce(&Schema<'_>) -> R) -> R {
        let members: Vec<Schema<'_>> = self
            .members
            .iter()
            .enumerate()
            .map(|(index, member)| member.schema(Some(index)))
            .collect();
        let members: Vec<&Schema<'_>> = members.iter().collect();
        f(&Schema {
            xml_name: xml_name(&self.xml_name),
            original_name: self.original_name.as_deref(),
            member_name: self.member_name.as_deref(),
            shape_name: &self.shape_name,
            xml_unwrapped_output: self.unwrapped,
            aggregate: true,
            members: &members,
            ..Schema::default()
        })
    }
}

impl List {
    pub fn with_schema<R>(&self, f: impl FnOnce(&Schema<'_>) -> R) -> R {
        let member = self.member.as_ref().map(|member| member.schema(None));
        f(&Schema {
            xml_flattened: self.flattened,
            aggregate: true,
            member: member.as_ref(),
            ..Schema::default()
        })
    }
}

impl Map {
    pub fn with_schema<R>(&self, f: impl FnOnce(&Schema<'_>) -> R) -> R {
        let key = Schema {
            xml_name: xml_name(&self.key_xml_name),
            ..Schema::default()
        };
        let value = self.value.as_ref().map(|value| value.schema(None));
        f(&Schema {
            xml_flattened: self.flattened,
            aggregate: true,
            key: Some(&key),
            member: value.as_ref(),
            ..Schema::default()
        })
    }
}
