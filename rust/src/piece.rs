//! A piece: an element of an upload, with its own rows at hand.

use crate::row::element_at;
use crate::{Row, Upload};
use std::fmt;
use std::ops::Range;
use std::str::Utf8Error;

/// An element of an upload, from its `<` to the end of its end tag or `/>`.
///
/// ```
/// # #[cfg(feature = "xmlparser")] {
/// use falzheod::{check, Entry, ListSheet, Settings};
///
/// let list = ListSheet::builder().build()?;
/// let upload = check(b"<cores><core>17</core></cores>")?;
/// let reading = upload.read_list(&list, &Settings::default());
/// for entry in reading.entries() {
///     if let Entry::Piece { piece, .. } = entry {
///         assert_eq!(piece.bytes(), b"<core>17</core>");
///         assert_eq!(piece.upload().read_integer(&Settings::default()), Ok(17));
///     }
/// }
/// # }
/// # Ok::<(), Box<dyn std::error::Error>>(())
/// ```
#[derive(Clone, Copy)]
pub struct Piece<'r> {
    upload: &'r Upload<'r>,
    start: u32,
    len: u32,
    depth: u32,
}

impl<'r> Piece<'r> {
    /// A piece of an upload, so many shape levels below it.
    pub(crate) fn of(upload: &'r Upload<'r>, place: (u32, u32), below: u32) -> Self {
        let ((start, len), depth) = (place, upload.depth().saturating_add(below));
        Piece {
            upload,
            start,
            len,
            depth,
        }
    }

    /// Where it stands in the body of its upload.
    ///
    /// ```
    /// # #[cfg(feature = "xmlparser")] {
    /// # use falzheod::{check, Entry, ListSheet, Settings};
    /// let list = ListSheet::builder().build()?;
    /// let upload = check(b"<r><b>7</b></r>")?;
    /// let reading = upload.read_list(&list, &Settings::default());
    /// let Some(Entry::Piece { piece, .. }) = reading.entries().next() else { panic!() };
    /// assert_eq!(piece.range(), 3..11);
    /// # }
    /// # Ok::<(), Box<dyn std::error::Error>>(())
    /// ```
    pub fn range(&self) -> Range<usize> {
        let start = self.start as usize;
        start..start + self.len as usize
    }

    /// Its bytes.
    ///
    /// ```
    /// # #[cfg(feature = "xmlparser")] {
    /// # use falzheod::{check, Entry, ListSheet, Settings};
    /// let list = ListSheet::builder().build()?;
    /// let upload = check(b"<r><b>7</b></r>")?;
    /// let reading = upload.read_list(&list, &Settings::default());
    /// let Some(Entry::Piece { piece, .. }) = reading.entries().next() else { panic!() };
    /// assert_eq!(piece.bytes(), b"<b>7</b>");
    /// # }
    /// # Ok::<(), Box<dyn std::error::Error>>(())
    /// ```
    pub fn bytes(&self) -> &'r [u8] {
        &self.upload.body()[self.range()]
    }

    /// Its bytes as a `str`, if they are UTF-8.
    ///
    /// ```
    /// # #[cfg(feature = "xmlparser")] {
    /// # use falzheod::{check, Entry, ListSheet, Settings};
    /// let list = ListSheet::builder().build()?;
    /// let upload = check(b"<r><b>7</b></r>")?;
    /// let reading = upload.read_list(&list, &Settings::default());
    /// let Some(Entry::Piece { piece, .. }) = reading.entries().next() else { panic!() };
    /// assert_eq!(piece.as_str(), Ok("<b>7</b>"));
    /// # }
    /// # Ok::<(), Box<dyn std::error::Error>>(())
    /// ```
    pub fn as_str(&self) -> Result<&'r str, Utf8Error> {
        std::str::from_utf8(self.bytes())
    }

    /// The piece as an upload of its own, one shape level deeper. Nothing is tokenized:
    /// its rows are those that it has in its upload, counted from its first byte.
    ///
    /// ```
    /// # #[cfg(feature = "xmlparser")] {
    /// # use falzheod::{check, Entry, ListSheet, Settings};
    /// let list = ListSheet::builder().build()?;
    /// let upload = check(b"<r><b>7</b></r>")?;
    /// let reading = upload.read_list(&list, &Settings::default());
    /// let Some(Entry::Piece { piece, .. }) = reading.entries().next() else { panic!() };
    /// assert_eq!(piece.upload(), check(b"<b>7</b>")?.at_depth(1));
    /// # }
    /// # Ok::<(), Box<dyn std::error::Error>>(())
    /// ```
    pub fn upload(&self) -> Upload<'r> {
        let rows: Vec<Row> = self.rows_at(0).collect();
        Upload::of_piece(self.bytes(), rows, self.depth)
    }

    /// Its rows, for a body in which it begins at `place`.
    pub(crate) fn rows_at(&self, place: u32) -> impl Iterator<Item = Row> + 'r {
        let start = self.start;
        let rows = element_at(self.upload.rows(), start);
        rows.iter().map(move |row| row.moved(start, place))
    }
}

impl fmt::Debug for Piece<'_> {
    fn fmt(&self, f: &mut fmt::Formatter<'_>) -> fmt::Result {
        write!(f, "Piece({:?})", String::from_utf8_lossy(self.bytes()))
    }
}
