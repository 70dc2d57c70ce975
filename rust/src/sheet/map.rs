//! The sheet of a map.

use super::bytes::{bits, Name, Reader, Writer};
use super::SheetError;

/// The sheet of a map: what its keys and values are called, and what a value is.
///
/// ```
/// use falzheod::MapSheet;
///
/// let sheet = MapSheet::builder().key_xml_name("year").value_xml_name("width").build()?;
/// assert_eq!(sheet.as_bytes(), b"\x0E\x04year\x05width");
/// assert_eq!(MapSheet::parse(sheet.as_bytes()), Ok(sheet));
/// # Ok::<(), falzheod::SheetError>(())
/// ```
#[derive(Clone, Debug, PartialEq, Eq, Hash)]
pub struct MapSheet {
    says: MapBuilder,
    bytes: Vec<u8>,
}

/// Builds the sheet of a map.
///
/// ```
/// assert!(falzheod::MapSheet::builder().flattened().build()?.is_flattened());
/// # Ok::<(), falzheod::SheetError>(())
/// ```
#[derive(Clone, Debug, Default, PartialEq, Eq, Hash)]
#[must_use]
pub struct MapBuilder {
    flattened: bool,
    key: Name,
    has_value: bool,
    value: Name,
    aggregate: bool,
}

impl MapSheet {
    /// Begins a sheet: keys named `key`, scalar values named `value`.
    ///
    /// ```
    /// let sheet = falzheod::MapSheet::builder().build()?;
    /// assert_eq!((sheet.key_name(), sheet.value_name()), (&b"key"[..], &b"value"[..]));
    /// # Ok::<(), falzheod::SheetError>(())
    /// ```
    pub fn builder() -> MapBuilder {
        MapBuilder::default()
    }

    /// The sheet that has these bytes.
    ///
    /// ```
    /// use falzheod::{MapSheet, SheetError};
    ///
    /// assert_eq!(MapSheet::parse(b"\x02\x04year")?.key_name(), b"year");
    /// // an aggregate value, but no value
    /// assert_eq!(MapSheet::parse(b"\x10"), Err(SheetError::Broken { byte: 0 }));
    /// # Ok::<(), SheetError>(())
    /// ```
    pub fn parse(bytes: &[u8]) -> Result<Self, SheetError> {
        let mut reader = Reader::new(bytes);
        let broken = reader.broken();
        let [flattened, key, has_value, value, aggregate] = reader.bits()?;
        if !has_value && (value || aggregate) {
            return Err(broken);
        }
        let says = MapBuilder {
            flattened,
            key: reader.name_if(key)?,
            has_value,
            value: reader.name_if(value)?,
            aggregate,
        };
        reader.end()?;
        Ok(MapSheet {
            says,
            bytes: bytes.to_vec(),
        })
    }

    /// The bytes of the sheet.
    ///
    /// ```
    /// assert_eq!(falzheod::MapSheet::builder().flattened().build()?.as_bytes(), [1]);
    /// # Ok::<(), falzheod::SheetError>(())
    /// ```
    pub fn as_bytes(&self) -> &[u8] {
        &self.bytes
    }

    /// The name of the keys.
    ///
    /// ```
    /// assert_eq!(falzheod::MapSheet::builder().build()?.key_name(), b"key");
    /// # Ok::<(), falzheod::SheetError>(())
    /// ```
    pub fn key_name(&self) -> &[u8] {
        self.says.key.as_deref().unwrap_or(b"key")
    }

    /// The name of the values.
    ///
    /// ```
    /// assert_eq!(falzheod::MapSheet::builder().build()?.value_name(), b"value");
    /// # Ok::<(), falzheod::SheetError>(())
    /// ```
    pub fn value_name(&self) -> &[u8] {
        self.says.value.as_deref().unwrap_or(b"value")
    }

    /// The keys' name in XML, if the sheet says one.
    ///
    /// ```
    /// assert_eq!(falzheod::MapSheet::builder().build()?.key_name_in_xml(), None);
    /// # Ok::<(), falzheod::SheetError>(())
    /// ```
    pub fn key_name_in_xml(&self) -> Option<&[u8]> {
        self.says.key.as_deref()
    }

    /// The values' name in XML, if the sheet says one.
    ///
    /// ```
    /// assert_eq!(falzheod::MapSheet::builder().build()?.value_name_in_xml(), None);
    /// # Ok::<(), falzheod::SheetError>(())
    /// ```
    pub fn value_name_in_xml(&self) -> Option<&[u8]> {
        self.says.value.as_deref()
    }

    /// Whether the sheet says something of the values; if not, they are scalars.
    ///
    /// ```
    /// assert!(!falzheod::MapSheet::builder().build()?.has_value());
    /// assert!(falzheod::MapSheet::builder().scalar_value().build()?.has_value());
    /// # Ok::<(), falzheod::SheetError>(())
    /// ```
    pub fn has_value(&self) -> bool {
        self.says.has_value
    }

    /// Whether the entries stand among other members.
    ///
    /// ```
    /// assert!(!falzheod::MapSheet::builder().build()?.is_flattened());
    /// # Ok::<(), falzheod::SheetError>(())
    /// ```
    pub fn is_flattened(&self) -> bool {
        self.says.flattened
    }

    /// Whether the values are structures, lists or maps, and come as pieces.
    ///
    /// ```
    /// assert!(falzheod::MapSheet::builder().aggregate_value().build()?.has_aggregate_value());
    /// # Ok::<(), falzheod::SheetError>(())
    /// ```
    pub fn has_aggregate_value(&self) -> bool {
        self.says.aggregate
    }
}

impl MapBuilder {
    /// Flattened: the entries stand among other members.
    ///
    /// ```
    /// assert_eq!(falzheod::MapSheet::builder().flattened().build()?.as_bytes(), [1]);
    /// # Ok::<(), falzheod::SheetError>(())
    /// ```
    pub fn flattened(self) -> Self {
        MapBuilder {
            flattened: true,
            ..self
        }
    }

    /// With keys of this name in XML.
    ///
    /// ```
    /// let sheet = falzheod::MapSheet::builder().key_xml_name("year").build()?;
    /// assert_eq!(sheet.key_name(), b"year");
    /// # Ok::<(), falzheod::SheetError>(())
    /// ```
    pub fn key_xml_name(self, name: impl AsRef<[u8]>) -> Self {
        MapBuilder {
            key: Some(name.as_ref().to_vec()),
            ..self
        }
    }

    /// With a scalar value, which a sheet without one reads too.
    ///
    /// ```
    /// assert_eq!(falzheod::MapSheet::builder().scalar_value().build()?.as_bytes(), [4]);
    /// # Ok::<(), falzheod::SheetError>(())
    /// ```
    pub fn scalar_value(self) -> Self {
        MapBuilder {
            has_value: true,
            aggregate: false,
            ..self
        }
    }

    /// With values of this name in XML.
    ///
    /// ```
    /// let sheet = falzheod::MapSheet::builder().value_xml_name("width").build()?;
    /// assert_eq!(sheet.value_name(), b"width");
    /// # Ok::<(), falzheod::SheetError>(())
    /// ```
    pub fn value_xml_name(self, name: impl AsRef<[u8]>) -> Self {
        MapBuilder {
            has_value: true,
            value: Some(name.as_ref().to_vec()),
            ..self
        }
    }

    /// With values that are structures, lists or maps.
    ///
    /// ```
    /// assert_eq!(falzheod::MapSheet::builder().aggregate_value().build()?.as_bytes(), [0x14]);
    /// # Ok::<(), falzheod::SheetError>(())
    /// ```
    pub fn aggregate_value(self) -> Self {
        MapBuilder {
            has_value: true,
            aggregate: true,
            ..self
        }
    }

    /// The sheet, if each name has 1 to 255 bytes.
    ///
    /// ```
    /// let error = falzheod::MapSheet::builder().key_xml_name("").build().unwrap_err();
    /// assert_eq!(error.to_string(), "the key XML name is empty");
    /// ```
    pub fn build(self) -> Result<MapSheet, SheetError> {
        let mut writer = Writer::default();
        writer.byte(bits(&[
            self.flattened,
            self.key.is_some(),
            self.has_value,
            self.value.is_some(),
            self.aggregate,
        ]));
        writer.name("key XML name", &self.key)?;
        writer.name("value XML name", &self.value)?;
        Ok(MapSheet {
            says: self,
            bytes: writer.bytes,
        })
    }
}
