//! What a reading hands out: texts, pieces of the body, groups, and texts that failed.

use crate::{Group, Piece, Refusal, Text};

/// One entry of a reading.
///
/// `member` is the index of the member in the sheet of a structure, and 0 for items of a
/// list and entries of a map; `key` is there in maps alone.
///
/// ```
/// # #[cfg(feature = "xmlparser")] {
/// use falzheod::{check, Entry, Member, Settings, StructSheet};
///
/// let sheet = StructSheet::builder("core")
///     .member(Member::new("bark"))
///     .member(Member::new("taken").aggregate())
///     .build()?;
/// let upload = check(b"<core><bark>lost</bark><taken height='1.3'/></core>")?;
/// let reading = upload.read_struct(&sheet, &Settings::default());
/// for entry in reading.entries() {
///     match entry {
///         Entry::Text { member, text, .. } => assert_eq!((member, text.as_str()?), (0, "lost")),
///         Entry::Piece { piece, .. } => assert_eq!(piece.bytes(), b"<taken height='1.3'/>"),
///         Entry::Group { .. } | Entry::Failed { .. } => unreachable!(),
///     }
/// }
/// # }
/// # Ok::<(), Box<dyn std::error::Error>>(())
/// ```
#[derive(Clone, Debug)]
pub enum Entry<'r> {
    /// The text of a scalar, unescaped.
    Text {
        /// The index of its member.
        member: usize,
        /// Its key, in a map.
        key: Option<Text<'r>>,
        /// The text.
        text: Text<'r>,
    },
    /// An element of the upload: a structure, list or map of its own, or an item.
    Piece {
        /// The index of its member.
        member: usize,
        /// Its key, in a map.
        key: Option<Text<'r>>,
        /// The element.
        piece: Piece<'r>,
    },
    /// All elements of a flattened member.
    Group {
        /// The index of its member.
        member: usize,
        /// The elements.
        group: Group<'r>,
    },
    /// A scalar whose text could not be read, since it has an element in it.
    Failed {
        /// The index of its member.
        member: usize,
        /// Why.
        refusal: Refusal,
    },
}

impl<'r> Entry<'r> {
    /// The index of its member; 0 for items and map entries.
    ///
    /// ```
    /// use falzheod::{Entry, Refusal};
    ///
    /// let failed = Entry::Failed { member: 3, refusal: Refusal::ElementInText };
    /// assert_eq!(failed.member(), 3);
    /// ```
    pub fn member(&self) -> usize {
        match self {
            Entry::Text { member, .. }
            | Entry::Piece { member, .. }
            | Entry::Group { member, .. }
            | Entry::Failed { member, .. } => *member,
        }
    }

    /// Its key, in a map.
    ///
    /// ```
    /// use falzheod::Entry;
    ///
    /// let key = Some(b"1911"[..].into());
    /// let entry = Entry::Text { member: 0, key, text: b"1480"[..].into() };
    /// assert_eq!(entry.key().unwrap().integer(), Ok(1911));
    /// ```
    pub fn key(&self) -> Option<&Text<'r>> {
        match self {
            Entry::Text { key, .. } | Entry::Piece { key, .. } => key.as_ref(),
            Entry::Group { .. } | Entry::Failed { .. } => None,
        }
    }

    /// Its bytes: the text, the element, or the group; none of a text that failed.
    ///
    /// ```
    /// use falzheod::Entry;
    ///
    /// let entry = Entry::Text { member: 0, key: None, text: b"1480"[..].into() };
    /// assert_eq!(entry.bytes(), b"1480");
    /// ```
    pub fn bytes(&self) -> &[u8] {
        match self {
            Entry::Text { text, .. } => text.as_bytes(),
            Entry::Piece { piece, .. } => piece.bytes(),
            Entry::Group { group, .. } => group.bytes(),
            Entry::Failed { .. } => &[],
        }
    }

    /// Its bytes as a `str`; `None` where they are not UTF-8 and where the text failed.
    ///
    /// ```
    /// use falzheod::Entry;
    ///
    /// let entry = Entry::Text { member: 0, key: None, text: b"1480"[..].into() };
    /// assert_eq!(entry.as_str(), Some("1480"));
    /// let broken = Entry::Text { member: 0, key: None, text: b"\xB5"[..].into() };
    /// assert_eq!(broken.as_str(), None);
    /// ```
    pub fn as_str(&self) -> Option<&str> {
        match self {
            Entry::Failed { .. } => None,
            _ => std::str::from_utf8(self.bytes()).ok(),
        }
    }
}
