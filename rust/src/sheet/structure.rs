//! The sheet of a structure.

use super::bytes::{bits, Name, Reader, Writer};
use super::{Member, SheetError, MOST_MEMBERS};

/// The sheet of a structure: its names and its members.
///
/// ```
/// use falzheod::{Member, StructSheet};
///
/// let sheet = StructSheet::builder("core")
///     .member(Member::new("id").attribute())
///     .build()?;
/// assert_eq!(sheet.as_bytes(), b"\x00\x04core\x01\x06\x02id");
/// assert_eq!(StructSheet::parse(sheet.as_bytes()), Ok(sheet));
/// # Ok::<(), falzheod::SheetError>(())
/// ```
#[derive(Clone, Debug, PartialEq, Eq, Hash)]
pub struct StructSheet {
    says: StructBuilder,
    bytes: Vec<u8>,
}

/// Builds the sheet of a structure.
///
/// ```
/// let builder = falzheod::StructSheet::builder("core").xml_name("d:core");
/// assert_eq!(builder.build()?.root_name(), b"d:core");
/// # Ok::<(), falzheod::SheetError>(())
/// ```
#[derive(Clone, Debug, PartialEq, Eq, Hash)]
#[must_use]
pub struct StructBuilder {
    xml_name: Name,
    original_name: Name,
    member_name: Name,
    unwrapped: bool,
    shape_name: Vec<u8>,
    members: Vec<Member>,
}

impl StructSheet {
    /// Begins a sheet with its shape's name.
    ///
    /// ```
    /// let sheet = falzheod::StructSheet::builder("core").build()?;
    /// assert_eq!(sheet.root_name(), b"core");
    /// # Ok::<(), falzheod::SheetError>(())
    /// ```
    pub fn builder(shape_name: impl AsRef<[u8]>) -> StructBuilder {
        StructBuilder {
            xml_name: None,
            original_name: None,
            member_name: None,
            unwrapped: false,
            shape_name: shape_name.as_ref().to_vec(),
            members: Vec::new(),
        }
    }

    /// The sheet that has these bytes.
    ///
    /// ```
    /// use falzheod::{SheetError, StructSheet};
    ///
    /// assert_eq!(StructSheet::parse(b"\x00\x04core\x00")?.root_name(), b"core");
    /// assert_eq!(StructSheet::parse(b"\x10"), Err(SheetError::Broken { byte: 0 }));
    /// # Ok::<(), SheetError>(())
    /// ```
    pub fn parse(bytes: &[u8]) -> Result<Self, SheetError> {
        let mut reader = Reader::new(bytes);
        let [xml_name, original_name, member_name, unwrapped] = reader.bits()?;
        let mut says = StructBuilder {
            xml_name: reader.name_if(xml_name)?,
            original_name: reader.name_if(original_name)?,
            member_name: reader.name_if(member_name)?,
            unwrapped,
            shape_name: reader.name()?,
            members: Vec::new(),
        };
        for _ in 0..reader.byte(MOST_MEMBERS as u8)? {
            says.members.push(Member::read(&mut reader)?);
        }
        reader.end()?;
        Ok(StructSheet {
            says,
            bytes: bytes.to_vec(),
        })
    }

    /// The bytes of the sheet.
    ///
    /// ```
    /// let sheet = falzheod::StructSheet::builder("core").build()?;
    /// assert_eq!(sheet.as_bytes(), b"\x00\x04core\x00");
    /// # Ok::<(), falzheod::SheetError>(())
    /// ```
    pub fn as_bytes(&self) -> &[u8] {
        &self.bytes
    }

    /// The members; a member's index is its place.
    ///
    /// ```
    /// let sheet = falzheod::StructSheet::builder("core").build()?;
    /// assert!(sheet.members().is_empty());
    /// # Ok::<(), falzheod::SheetError>(())
    /// ```
    pub fn members(&self) -> &[Member] {
        &self.says.members
    }

    /// The index of the first member that asks for this name.
    ///
    /// ```
    /// use falzheod::{Member, StructSheet};
    ///
    /// let sheet = StructSheet::builder("core").member(Member::new("id")).build()?;
    /// assert_eq!(sheet.index_of("id"), Some(0));
    /// assert_eq!(sheet.index_of("bark"), None);
    /// # Ok::<(), falzheod::SheetError>(())
    /// ```
    pub fn index_of(&self, name: impl AsRef<[u8]>) -> Option<usize> {
        let name = name.as_ref();
        self.members()
            .iter()
            .position(|member| member.asked() == name)
    }

    /// The name that the root is tested for: the name in XML, else the original name,
    /// else the member name, else the shape's.
    ///
    /// ```
    /// let sheet = falzheod::StructSheet::builder("core").original_name("Core").build()?;
    /// assert_eq!(sheet.root_name(), b"Core");
    /// # Ok::<(), falzheod::SheetError>(())
    /// ```
    pub fn root_name(&self) -> &[u8] {
        let StructBuilder {
            xml_name,
            original_name,
            member_name,
            shape_name,
            ..
        } = &self.says;
        let name = xml_name
            .as_ref()
            .or(original_name.as_ref())
            .or(member_name.as_ref());
        name.unwrap_or(shape_name)
    }

    /// The shape's name.
    ///
    /// ```
    /// let sheet = falzheod::StructSheet::builder("core").xml_name("d:core").build()?;
    /// assert_eq!(sheet.shape_name(), b"core");
    /// # Ok::<(), falzheod::SheetError>(())
    /// ```
    pub fn shape_name(&self) -> &[u8] {
        &self.says.shape_name
    }

    /// The name in XML, if it has one.
    ///
    /// ```
    /// assert_eq!(falzheod::StructSheet::builder("core").build()?.name_in_xml(), None);
    /// # Ok::<(), falzheod::SheetError>(())
    /// ```
    pub fn name_in_xml(&self) -> Option<&[u8]> {
        self.says.xml_name.as_deref()
    }

    /// The original name, if it has one.
    ///
    /// ```
    /// assert_eq!(falzheod::StructSheet::builder("core").build()?.original_name(), None);
    /// # Ok::<(), falzheod::SheetError>(())
    /// ```
    pub fn original_name(&self) -> Option<&[u8]> {
        self.says.original_name.as_deref()
    }

    /// The name of the member that it is, if it has one.
    ///
    /// ```
    /// assert_eq!(falzheod::StructSheet::builder("core").build()?.member_name(), None);
    /// # Ok::<(), falzheod::SheetError>(())
    /// ```
    pub fn member_name(&self) -> Option<&[u8]> {
        self.says.member_name.as_deref()
    }

    /// Whether the root itself is the only member.
    ///
    /// ```
    /// assert!(falzheod::StructSheet::builder("r").unwrapped().build()?.is_unwrapped());
    /// # Ok::<(), falzheod::SheetError>(())
    /// ```
    pub fn is_unwrapped(&self) -> bool {
        self.says.unwrapped
    }
}

impl StructBuilder {
    /// With a name in XML.
    ///
    /// ```
    /// let sheet = falzheod::StructSheet::builder("core").xml_name("d:core").build()?;
    /// assert_eq!(sheet.root_name(), b"d:core");
    /// # Ok::<(), falzheod::SheetError>(())
    /// ```
    pub fn xml_name(self, name: impl AsRef<[u8]>) -> Self {
        StructBuilder {
            xml_name: Some(name.as_ref().to_vec()),
            ..self
        }
    }

    /// With an original name.
    ///
    /// ```
    /// let sheet = falzheod::StructSheet::builder("core").original_name("Core").build()?;
    /// assert_eq!(sheet.root_name(), b"Core");
    /// # Ok::<(), falzheod::SheetError>(())
    /// ```
    pub fn original_name(self, name: impl AsRef<[u8]>) -> Self {
        StructBuilder {
            original_name: Some(name.as_ref().to_vec()),
            ..self
        }
    }

    /// With the name of the member that it is.
    ///
    /// ```
    /// let sheet = falzheod::StructSheet::builder("core").member_name("first").build()?;
    /// assert_eq!(sheet.root_name(), b"first");
    /// # Ok::<(), falzheod::SheetError>(())
    /// ```
    pub fn member_name(self, name: impl AsRef<[u8]>) -> Self {
        StructBuilder {
            member_name: Some(name.as_ref().to_vec()),
            ..self
        }
    }

    /// Unwrapped: the root itself is the only member.
    ///
    /// ```
    /// assert!(falzheod::StructSheet::builder("r").unwrapped().build()?.is_unwrapped());
    /// # Ok::<(), falzheod::SheetError>(())
    /// ```
    pub fn unwrapped(self) -> Self {
        StructBuilder {
            unwrapped: true,
            ..self
        }
    }

    /// With one more member.
    ///
    /// ```
    /// use falzheod::{Member, StructSheet};
    ///
    /// let sheet = StructSheet::builder("core").member(Member::new("bark")).build()?;
    /// assert_eq!(sheet.members().len(), 1);
    /// # Ok::<(), falzheod::SheetError>(())
    /// ```
    pub fn member(mut self, member: Member) -> Self {
        self.members.push(member);
        self
    }

    /// The sheet, if each name has 1 to 255 bytes and there are at most 64 members.
    ///
    /// ```
    /// use falzheod::{SheetError, StructSheet};
    ///
    /// let long = "n".repeat(256);
    /// let error = StructSheet::builder(long).build().unwrap_err();
    /// assert_eq!(error.to_string(), "the shape name has 256 bytes, and 255 is the most");
    /// ```
    pub fn build(self) -> Result<StructSheet, SheetError> {
        let count = self.members.len();
        if count > MOST_MEMBERS {
            return Err(SheetError::ManyMembers { count });
        }
        let mut writer = Writer::default();
        writer.byte(bits(&[
            self.xml_name.is_some(),
            self.original_name.is_some(),
            self.member_name.is_some(),
            self.unwrapped,
        ]));
        writer.name("XML name", &self.xml_name)?;
        writer.name("original name", &self.original_name)?;
        writer.name("member name", &self.member_name)?;
        writer.given("shape name", &self.shape_name)?;
        writer.byte(count as u8);
        for (index, member) in self.members.iter().enumerate() {
            writer.member = Some(index);
            member.write(&mut writer)?;
        }
        Ok(StructSheet {
            says: self,
            bytes: writer.bytes,
        })
    }
}
