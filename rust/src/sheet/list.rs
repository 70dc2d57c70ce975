//! The sheet of a list.

use super::bytes::{bits, Name, Reader, Writer};
use super::SheetError;

/// The sheet of a list: what its items are called. Names say something only where
/// [`strict_collection_element_names`](crate::Settings::strict_collection_element_names)
/// stands; else every child is an item.
///
/// ```
/// use falzheod::ListSheet;
///
/// let sheet = ListSheet::builder().item("core").build()?;
/// assert_eq!(sheet.as_bytes(), b"\x09\x04core");
/// assert_eq!(ListSheet::parse(sheet.as_bytes()), Ok(sheet));
/// # Ok::<(), falzheod::SheetError>(())
/// ```
#[derive(Clone, Debug, PartialEq, Eq, Hash)]
pub struct ListSheet {
    says: ListBuilder,
    bytes: Vec<u8>,
}

/// Builds the sheet of a list.
///
/// ```
/// assert!(falzheod::ListSheet::builder().flattened().build()?.is_flattened());
/// # Ok::<(), falzheod::SheetError>(())
/// ```
#[derive(Clone, Debug, Default, PartialEq, Eq, Hash)]
#[must_use]
pub struct ListBuilder {
    has_member: bool,
    flattened: bool,
    xml_name: Name,
    member_name: Name,
}

impl ListSheet {
    /// Begins a sheet: a list without a member, in which every child is an item.
    ///
    /// ```
    /// assert_eq!(falzheod::ListSheet::builder().build()?.as_bytes(), [0]);
    /// # Ok::<(), falzheod::SheetError>(())
    /// ```
    pub fn builder() -> ListBuilder {
        ListBuilder::default()
    }

    /// The sheet that has these bytes.
    ///
    /// ```
    /// use falzheod::{ListSheet, SheetError};
    ///
    /// assert_eq!(ListSheet::parse(b"\x09\x04core")?.item_name(), Some(&b"core"[..]));
    /// // a name, but no member that has it
    /// assert_eq!(ListSheet::parse(b"\x08\x04core"), Err(SheetError::Broken { byte: 0 }));
    /// # Ok::<(), SheetError>(())
    /// ```
    pub fn parse(bytes: &[u8]) -> Result<Self, SheetError> {
        let mut reader = Reader::new(bytes);
        let broken = reader.broken();
        let [has_member, flattened, xml_name, member_name] = reader.bits()?;
        if !has_member && (xml_name || member_name) {
            return Err(broken);
        }
        let says = ListBuilder {
            has_member,
            flattened,
            xml_name: reader.name_if(xml_name)?,
            member_name: reader.name_if(member_name)?,
        };
        reader.end()?;
        Ok(ListSheet {
            says,
            bytes: bytes.to_vec(),
        })
    }

    /// The bytes of the sheet.
    ///
    /// ```
    /// let sheet = falzheod::ListSheet::builder().flattened().build()?;
    /// assert_eq!(sheet.as_bytes(), [2]);
    /// # Ok::<(), falzheod::SheetError>(())
    /// ```
    pub fn as_bytes(&self) -> &[u8] {
        &self.bytes
    }

    /// The name of its items, if it has a member: its name in XML, else its own, else
    /// `member`.
    ///
    /// ```
    /// use falzheod::ListSheet;
    ///
    /// assert_eq!(ListSheet::builder().build()?.item_name(), None);
    /// let nameless = ListSheet::builder().nameless_item().build()?;
    /// assert_eq!(nameless.item_name(), Some(&b"member"[..]));
    /// # Ok::<(), falzheod::SheetError>(())
    /// ```
    pub fn item_name(&self) -> Option<&[u8]> {
        let name = self
            .says
            .xml_name
            .as_ref()
            .or(self.says.member_name.as_ref());
        let name = name.map_or(&b"member"[..], Vec::as_slice);
        self.says.has_member.then_some(name)
    }

    /// Its member's name in XML, if it has one.
    ///
    /// ```
    /// let sheet = falzheod::ListSheet::builder().item_xml_name("d:core").build()?;
    /// assert_eq!(sheet.item_name_in_xml(), Some(&b"d:core"[..]));
    /// # Ok::<(), falzheod::SheetError>(())
    /// ```
    pub fn item_name_in_xml(&self) -> Option<&[u8]> {
        self.says.xml_name.as_deref()
    }

    /// Its member's own name, if it has one.
    ///
    /// ```
    /// let sheet = falzheod::ListSheet::builder().item_xml_name("d:core").build()?;
    /// assert_eq!(sheet.item_own_name(), None);
    /// # Ok::<(), falzheod::SheetError>(())
    /// ```
    pub fn item_own_name(&self) -> Option<&[u8]> {
        self.says.member_name.as_deref()
    }

    /// Whether the items stand among other members.
    ///
    /// ```
    /// assert!(!falzheod::ListSheet::builder().build()?.is_flattened());
    /// # Ok::<(), falzheod::SheetError>(())
    /// ```
    pub fn is_flattened(&self) -> bool {
        self.says.flattened
    }
}

impl ListBuilder {
    /// With items of this name.
    ///
    /// ```
    /// let sheet = falzheod::ListSheet::builder().item("core").build()?;
    /// assert_eq!(sheet.item_name(), Some(&b"core"[..]));
    /// # Ok::<(), falzheod::SheetError>(())
    /// ```
    pub fn item(self, name: impl AsRef<[u8]>) -> Self {
        ListBuilder {
            has_member: true,
            member_name: Some(name.as_ref().to_vec()),
            ..self
        }
    }

    /// With items that have no name of their own: `member` is asked for.
    ///
    /// ```
    /// assert_eq!(falzheod::ListSheet::builder().nameless_item().build()?.as_bytes(), [1]);
    /// # Ok::<(), falzheod::SheetError>(())
    /// ```
    pub fn nameless_item(self) -> Self {
        ListBuilder {
            has_member: true,
            ..self
        }
    }

    /// With items of this name in XML, which goes before their own.
    ///
    /// ```
    /// let sheet = falzheod::ListSheet::builder().item("core").item_xml_name("d:core").build()?;
    /// assert_eq!(sheet.item_name(), Some(&b"d:core"[..]));
    /// # Ok::<(), falzheod::SheetError>(())
    /// ```
    pub fn item_xml_name(self, name: impl AsRef<[u8]>) -> Self {
        ListBuilder {
            has_member: true,
            xml_name: Some(name.as_ref().to_vec()),
            ..self
        }
    }

    /// Flattened: the items stand among other members.
    ///
    /// ```
    /// assert_eq!(falzheod::ListSheet::builder().flattened().build()?.as_bytes(), [2]);
    /// # Ok::<(), falzheod::SheetError>(())
    /// ```
    pub fn flattened(self) -> Self {
        ListBuilder {
            flattened: true,
            ..self
        }
    }

    /// The sheet, if each name has 1 to 255 bytes.
    ///
    /// ```
    /// let error = falzheod::ListSheet::builder().item("").build().unwrap_err();
    /// assert_eq!(error.to_string(), "the member name is empty");
    /// ```
    pub fn build(self) -> Result<ListSheet, SheetError> {
        let mut writer = Writer::default();
        writer.byte(bits(&[
            self.has_member,
            self.flattened,
            self.xml_name.is_some(),
            self.member_name.is_some(),
        ]));
        writer.name("XML name", &self.xml_name)?;
        writer.name("member name", &self.member_name)?;
        Ok(ListSheet {
            says: self,
            bytes: writer.bytes,
        })
    }
}
