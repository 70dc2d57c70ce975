//! An upload: a body whose table passed the drain and has a root element.

use crate::lent::Lent;
use crate::row::kind;
use crate::{drain, sys, CheckError, Limit, Place, Row};
use std::borrow::Cow;

/// A body and its token table, which passed the drain and has a root element.
///
/// There is no other way to one: `check` (feature `xmlparser`), [`Upload::of_table`], or
/// a piece of an upload, which the drain is proved to pass again.
///
/// ```
/// # #[cfg(feature = "xmlparser")] {
/// let upload = falzheod::check(b"<core id='17'/>")?;
/// assert_eq!(upload.rows().len(), 3);
/// assert_eq!(upload.depth(), 0);
/// # }
/// # Ok::<(), falzheod::CheckError>(())
/// ```
#[derive(Clone, Debug, PartialEq, Eq)]
pub struct Upload<'a> {
    body: &'a [u8],
    rows: Cow<'a, [Row]>,
    end: u32,
    depth: u32,
}

impl<'a> Upload<'a> {
    /// The upload of a table that another tokenizer made, if it passes.
    ///
    /// ```
    /// use falzheod::{CheckError, Row, Upload};
    ///
    /// let start = Row { kind: 1, local_start: 1, local_len: 1, position: 2, ..Row::default() };
    /// let end = Row { kind: 5, position: 4, ..Row::default() };
    /// let upload = Upload::of_table(b"<a/>", vec![start, end], 4)?;
    /// assert_eq!(upload.body(), b"<a/>");
    ///
    /// let cut = Upload::of_table(b"<a", vec![start], 2).unwrap_err();
    /// assert_eq!(cut.to_string(), "line 1, column 3: the body ends where <a> is open, \
    ///     since line 1, column 1");
    /// # Ok::<(), CheckError>(())
    /// ```
    pub fn of_table(
        body: &'a [u8],
        rows: impl Into<Cow<'a, [Row]>>,
        end: u32,
    ) -> Result<Self, CheckError> {
        readable(body)?;
        Upload::drained(body, rows.into(), end)
    }

    /// The upload of a body that is readable, if its table passes and has a root.
    pub(crate) fn drained(
        body: &'a [u8],
        rows: Cow<'a, [Row]>,
        end: u32,
    ) -> Result<Self, CheckError> {
        drain(body, &rows, end).map_err(|refusal| CheckError::of(body, &rows, refusal))?;
        if !rows.iter().any(|row| row.kind == kind::START) {
            let at = Place::of(body, body.len());
            return Err(CheckError::NoElement { at });
        }
        Ok(Upload {
            body,
            rows,
            end,
            depth: 0,
        })
    }

    /// The upload of a piece of one that passed, by its own rows.
    pub(crate) fn of_piece(body: &'a [u8], rows: impl Into<Cow<'a, [Row]>>, depth: u32) -> Self {
        Upload {
            body,
            rows: rows.into(),
            end: body.len() as u32,
            depth,
        }
    }

    /// The same upload with its rows borrowed.
    pub(crate) fn again(&self) -> Upload<'_> {
        Upload {
            rows: Cow::Borrowed(&self.rows),
            ..*self
        }
    }

    /// The same upload, read at another shape depth. Settings say something of depth 0
    /// alone, and none is read at the maximum.
    ///
    /// ```
    /// # #[cfg(feature = "xmlparser")] {
    /// assert_eq!(falzheod::check(b"<core/>")?.at_depth(3).depth(), 3);
    /// # }
    /// # Ok::<(), falzheod::CheckError>(())
    /// ```
    pub fn at_depth(self, depth: u32) -> Self {
        Upload { depth, ..self }
    }

    /// The body.
    ///
    /// ```
    /// # #[cfg(feature = "xmlparser")] {
    /// assert_eq!(falzheod::check(b"<core/>")?.body(), b"<core/>");
    /// # }
    /// # Ok::<(), falzheod::CheckError>(())
    /// ```
    pub fn body(&self) -> &'a [u8] {
        self.body
    }

    /// The root's name, with its prefix.
    ///
    /// ```
    /// # #[cfg(feature = "xmlparser")] {
    /// assert_eq!(falzheod::check(b"<!-- c --><d:core/>")?.root_name(), "d:core");
    /// # }
    /// # Ok::<(), falzheod::CheckError>(())
    /// ```
    pub fn root_name(&self) -> String {
        let root = self.rows.iter().find(|row| row.kind == kind::START);
        root.map_or(String::new(), |row| row.name(self.body))
    }

    /// The rows of its table.
    ///
    /// ```
    /// # #[cfg(feature = "xmlparser")] {
    /// assert_eq!(falzheod::check(b"<core/>")?.rows()[0].kind, 1);
    /// # }
    /// # Ok::<(), falzheod::CheckError>(())
    /// ```
    pub fn rows(&self) -> &[Row] {
        &self.rows
    }

    /// The final position of its table.
    ///
    /// ```
    /// # #[cfg(feature = "xmlparser")] {
    /// assert_eq!(falzheod::check(b"<core/>")?.end(), 7);
    /// # }
    /// # Ok::<(), falzheod::CheckError>(())
    /// ```
    pub fn end(&self) -> u32 {
        self.end
    }

    /// The shape depth at which it is read: 0, and one more for a piece.
    ///
    /// ```
    /// # #[cfg(feature = "xmlparser")] {
    /// assert_eq!(falzheod::check(b"<core/>")?.depth(), 0);
    /// # }
    /// # Ok::<(), falzheod::CheckError>(())
    /// ```
    pub fn depth(&self) -> u32 {
        self.depth
    }

    /// The upload for the functions of [`lent`](crate::lent), with buffers of one's own.
    ///
    /// ```
    /// # #[cfg(feature = "xmlparser")] {
    /// use falzheod::{lent, Settings};
    ///
    /// let upload = falzheod::check(b"<sound>true</sound>")?;
    /// assert_eq!(lent::read_boolean(upload.lent(), Settings::default(), 0), Ok(true));
    /// # }
    /// # Ok::<(), falzheod::CheckError>(())
    /// ```
    pub fn lent(&self) -> Lent<'_> {
        Lent {
            body: self.body,
            rows: sys::numbers(&self.rows),
            end: self.end,
        }
    }
}

/// The body as text, if it has any, is UTF-8 and not too long. A byte past the limit is
/// not looked at.
pub(crate) fn readable(body: &[u8]) -> Result<&str, CheckError> {
    if body.is_empty() {
        return Err(CheckError::Empty);
    }
    let taken = &body[..body.len().min(Limit::Bytes.most())];
    match std::str::from_utf8(taken) {
        Ok(text) if taken.len() == body.len() => Ok(text),
        // a character that the limit cuts is no fault of the body
        Err(error) if taken.len() == body.len() || error.error_len().is_some() => {
            let at = Place::of(body, error.valid_up_to());
            Err(CheckError::NotUtf8 { at })
        }
        _ => {
            let limit = Limit::Bytes;
            let at = Place::of(body, limit.most());
            Err(CheckError::TooLarge { limit, at })
        }
    }
}
