//! How an upload is read: the names and the defaults of the Rust crate aws-smithy-xml.

/// How an upload is read.
///
/// ```
/// use falzheod::Settings;
///
/// let settings = Settings::default();
/// assert!(!settings.validate_document && !settings.validate_root_name);
/// assert!(!settings.strict_collection_element_names);
/// assert_eq!(settings.max_depth, 128);
///
/// let shallow = Settings { max_depth: 4, ..settings };
/// assert_ne!(shallow, settings);
/// ```
#[derive(Clone, Copy, Debug, PartialEq, Eq, Hash)]
pub struct Settings {
    /// Whether a reading at depth 0 is strict: it is refused where the drain is.
    pub validate_document: bool,
    /// Whether a structure reading at depth 0 tests the root's name.
    pub validate_root_name: bool,
    /// Whether items and map entries must have the names that the sheet says.
    pub strict_collection_element_names: bool,
    /// A structure, list or map at this depth or deeper is refused.
    pub max_depth: u32,
}

impl Default for Settings {
    fn default() -> Self {
        Settings {
            validate_document: false,
            validate_root_name: false,
            strict_collection_element_names: false,
            max_depth: 128,
        }
    }
}

impl Settings {
    /// Whether what is ill-formed is refused, and a root of another name than the sheet
    /// says. An [`Upload`](crate::Upload) is well-formed whatever the settings are; over it
    /// this decides the root's name alone.
    ///
    /// ```
    /// let settings = falzheod::Settings::default().enforce_strictness(true);
    /// assert!(settings.validate_document && settings.validate_root_name);
    /// ```
    pub fn enforce_strictness(self, value: bool) -> Settings {
        Settings {
            validate_document: value,
            validate_root_name: value,
            ..self
        }
    }

    /// The three flags as the library takes them.
    pub(crate) fn flags(self) -> u32 {
        u32::from(self.validate_document)
            + 2 * u32::from(self.validate_root_name)
            + 4 * u32::from(self.strict_collection_element_names)
    }
}
