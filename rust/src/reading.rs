//! What a reading gave: its entries, and its refusal, if it was refused.

use crate::lent::{self, kind};
use crate::{Entry, Group, Piece, Refusal, Text, Upload};

/// What a reading by a sheet gave: its entries, and its refusal, if it was refused. A
/// refusal keeps the entries that were written before it.
///
/// ```
/// # #[cfg(feature = "xmlparser")] {
/// use falzheod::{check, ListSheet, Refusal, Settings};
///
/// let list = ListSheet::builder().build()?;
/// let upload = check(b"<u><s>one</s><s><b/></s></u>")?;
/// let reading = upload.read_string_list(&list, &Settings::default());
/// assert_eq!(reading.refusal(), Some(Refusal::ElementInText));
/// assert_eq!(reading.entries().len(), 1);
/// # }
/// # Ok::<(), Box<dyn std::error::Error>>(())
/// ```
#[derive(Clone, Debug)]
pub struct Reading<'u> {
    pub(crate) upload: &'u Upload<'u>,
    pub(crate) refusal: Option<Refusal>,
    pub(crate) is_map: bool,
    pub(crate) entries: Vec<lent::Entry>,
    pub(crate) texts: Vec<u8>,
    /// Of each group, which stand behind all other entries, the places of its siblings.
    pub(crate) groups: Vec<Vec<(u32, u32)>>,
}

impl Reading<'_> {
    /// Why the reading was refused, if it was.
    ///
    /// ```
    /// # #[cfg(feature = "xmlparser")] {
    /// # use falzheod::{check, ListSheet, Refusal, Settings};
    /// let list = ListSheet::builder().build()?;
    /// let upload = check(b"<u/>")?;
    /// let settings = Settings { max_depth: 0, ..Settings::default() };
    /// assert_eq!(upload.read_list(&list, &settings).refusal(), Some(Refusal::Depth));
    /// # }
    /// # Ok::<(), Box<dyn std::error::Error>>(())
    /// ```
    pub fn refusal(&self) -> Option<Refusal> {
        self.refusal
    }

    /// The entries that were written, finished or refused.
    ///
    /// ```
    /// # #[cfg(feature = "xmlparser")] {
    /// # use falzheod::{check, ListSheet, Settings};
    /// let list = ListSheet::builder().build()?;
    /// let upload = check(b"<u><core/><core/></u>")?;
    /// assert_eq!(upload.read_list(&list, &Settings::default()).entries().count(), 2);
    /// # }
    /// # Ok::<(), Box<dyn std::error::Error>>(())
    /// ```
    pub fn entries(&self) -> Entries<'_> {
        Entries {
            reading: self,
            next: 0,
        }
    }

    /// The entries, if the reading finished.
    ///
    /// ```
    /// # #[cfg(feature = "xmlparser")] {
    /// # use falzheod::{check, ListSheet, Settings};
    /// let list = ListSheet::builder().build()?;
    /// let upload = check(b"<u><core/></u>")?;
    /// assert_eq!(upload.read_list(&list, &Settings::default()).finished()?.len(), 1);
    /// # }
    /// # Ok::<(), Box<dyn std::error::Error>>(())
    /// ```
    pub fn finished(&self) -> Result<Entries<'_>, Refusal> {
        match self.refusal {
            Some(refusal) => Err(refusal),
            None => Ok(self.entries()),
        }
    }

    fn entry(&self, index: usize) -> Entry<'_> {
        let raw = self.entries[index];
        let member = raw.member as usize;
        let key = || {
            let key = self.text(raw.key_start, raw.key_len);
            self.is_map.then_some(Text::from(key))
        };
        match raw.kind {
            kind::TEXT => Entry::Text {
                member,
                key: key(),
                text: Text::from(self.text(raw.start, raw.len)),
            },
            kind::PIECE => Entry::Piece {
                member,
                key: key(),
                piece: Piece::of(self.upload, (raw.start, raw.len), 1),
            },
            kind::GROUP => {
                let siblings = &self.groups[index + self.groups.len() - self.entries.len()];
                let bytes = self.text(raw.start, raw.len);
                let group = Group::of(self.upload, bytes, siblings);
                Entry::Group { member, group }
            }
            kind::FAILED => Entry::Failed {
                member,
                refusal: Refusal::of(raw.start, raw.len as usize, || {
                    unreachable!("a text of what passed gave 9")
                }),
            },
            other => unreachable!("falzheod wrote an entry of kind {other}"),
        }
    }

    fn text(&self, start: u32, len: u32) -> &[u8] {
        &self.texts[start as usize..][..len as usize]
    }
}

/// The entries of a reading, in the order in which they were written. A clone begins
/// where it was made.
///
/// ```
/// # #[cfg(feature = "xmlparser")] {
/// use falzheod::{check, ListSheet, Settings};
///
/// let list = ListSheet::builder().build()?;
/// let upload = check(b"<u><a/><b/></u>")?;
/// let reading = upload.read_list(&list, &Settings::default());
/// let names: Vec<_> = reading.entries().map(|entry| entry.bytes()[1]).collect();
/// assert_eq!(names, [b'a', b'b']);
/// # }
/// # Ok::<(), Box<dyn std::error::Error>>(())
/// ```
#[derive(Clone, Debug)]
pub struct Entries<'r> {
    reading: &'r Reading<'r>,
    next: usize,
}

impl<'r> Iterator for Entries<'r> {
    type Item = Entry<'r>;

    fn next(&mut self) -> Option<Entry<'r>> {
        if self.next == self.reading.entries.len() {
            return None;
        }
        self.next += 1;
        Some(self.reading.entry(self.next - 1))
    }

    fn size_hint(&self) -> (usize, Option<usize>) {
        let left = self.reading.entries.len() - self.next;
        (left, Some(left))
    }
}

impl ExactSizeIterator for Entries<'_> {}
