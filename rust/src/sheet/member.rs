//! The members of a structure.

use super::bytes::{bits, Name, Reader, Writer};
use super::SheetError;

/// A member of a structure: what it is called and what it is.
///
/// A member is a scalar, whose text is read, unless it is an [`aggregate`](Member::aggregate):
/// a structure, list or map, which comes as a piece, or as a group of all its pieces where it
/// is [`flattened`](Member::flattened) too. An [`attribute`](Member::attribute) is looked for
/// among the root's attributes, and among its children as well.
///
/// ```
/// use falzheod::{Member, StructSheet};
///
/// let sheet = StructSheet::builder("core")
///     .member(Member::new("id").attribute())
///     .member(Member::new("unit").xml_name("m:unit").attribute())
///     .member(Member::new("bark"))
///     .member(Member::new("rings").flattened().aggregate())
///     .build()?;
/// assert_eq!(sheet.members()[1].asked(), b"m:unit");
/// # Ok::<(), falzheod::SheetError>(())
/// ```
#[derive(Clone, Debug, Default, PartialEq, Eq, Hash)]
#[must_use]
pub struct Member {
    xml_name: Name,
    member_name: Name,
    attribute: bool,
    flattened: bool,
    aggregate: bool,
}

impl Member {
    /// A scalar member of this name.
    ///
    /// ```
    /// let bark = falzheod::Member::new("bark");
    /// assert_eq!(bark.asked(), b"bark");
    /// assert!(!bark.is_aggregate());
    /// ```
    pub fn new(name: impl AsRef<[u8]>) -> Self {
        Member {
            member_name: Some(name.as_ref().to_vec()),
            ..Member::default()
        }
    }

    /// A scalar member without a name: no child is it, and as an attribute it asks for
    /// the empty name.
    ///
    /// ```
    /// assert_eq!(falzheod::Member::nameless().asked(), b"");
    /// ```
    pub fn nameless() -> Self {
        Member::default()
    }

    /// With a name in XML, which goes before the member's own.
    ///
    /// ```
    /// assert_eq!(falzheod::Member::new("unit").xml_name("m:unit").asked(), b"m:unit");
    /// ```
    pub fn xml_name(self, name: impl AsRef<[u8]>) -> Self {
        Member {
            xml_name: Some(name.as_ref().to_vec()),
            ..self
        }
    }

    /// An attribute.
    ///
    /// ```
    /// assert!(falzheod::Member::new("id").attribute().is_attribute());
    /// ```
    pub fn attribute(self) -> Self {
        Member {
            attribute: true,
            ..self
        }
    }

    /// Not in an element of its own: the items stand among the other members.
    ///
    /// ```
    /// assert!(falzheod::Member::new("rings").flattened().is_flattened());
    /// ```
    pub fn flattened(self) -> Self {
        Member {
            flattened: true,
            ..self
        }
    }

    /// A structure, list or map.
    ///
    /// ```
    /// assert!(falzheod::Member::new("site").aggregate().is_aggregate());
    /// ```
    pub fn aggregate(self) -> Self {
        Member {
            aggregate: true,
            ..self
        }
    }

    /// The name that the reading asks for: the name in XML, else the member's own, else
    /// the empty one.
    ///
    /// ```
    /// assert_eq!(falzheod::Member::new("bark").asked(), b"bark");
    /// ```
    pub fn asked(&self) -> &[u8] {
        let name = self.xml_name.as_ref().or(self.member_name.as_ref());
        name.map_or(&[], Vec::as_slice)
    }

    /// The member's own name, if it has one.
    ///
    /// ```
    /// let unit = falzheod::Member::new("unit").xml_name("m:unit");
    /// assert_eq!(unit.own_name(), Some(&b"unit"[..]));
    /// ```
    pub fn own_name(&self) -> Option<&[u8]> {
        self.member_name.as_deref()
    }

    /// The name in XML, if it has one.
    ///
    /// ```
    /// assert_eq!(falzheod::Member::new("unit").name_in_xml(), None);
    /// ```
    pub fn name_in_xml(&self) -> Option<&[u8]> {
        self.xml_name.as_deref()
    }

    /// Whether it is an attribute.
    ///
    /// ```
    /// assert!(!falzheod::Member::new("bark").is_attribute());
    /// ```
    pub fn is_attribute(&self) -> bool {
        self.attribute
    }

    /// Whether it is flattened.
    ///
    /// ```
    /// assert!(!falzheod::Member::new("bark").is_flattened());
    /// ```
    pub fn is_flattened(&self) -> bool {
        self.flattened
    }

    /// Whether it is an aggregate.
    ///
    /// ```
    /// assert!(!falzheod::Member::new("bark").is_aggregate());
    /// ```
    pub fn is_aggregate(&self) -> bool {
        self.aggregate
    }

    /// Bits 0 XML name, 1 member name, 2 attribute, 3 flattened, 4 aggregate.
    pub(super) fn write(&self, writer: &mut Writer) -> Result<(), SheetError> {
        writer.byte(bits(&[
            self.xml_name.is_some(),
            self.member_name.is_some(),
            self.attribute,
            self.flattened,
            self.aggregate,
        ]));
        writer.name("XML name", &self.xml_name)?;
        writer.name("member name", &self.member_name)
    }

    pub(super) fn read(reader: &mut Reader<'_>) -> Result<Self, SheetError> {
        let [xml_name, member_name, attribute, flattened, aggregate] = reader.bits()?;
        Ok(Member {
            xml_name: reader.name_if(xml_name)?,
            member_name: reader.name_if(member_name)?,
            attribute,
            flattened,
            aggregate,
        })
    }
}
