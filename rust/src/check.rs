//! From bytes to an upload: tokenized, drained, and with a root element (feature
//! `xmlparser`).

use crate::tokenizer_words::said;
use crate::upload::readable;
use crate::{import, table, CheckError, Entries, ImportError, Place, Row, Settings, Sheet, Upload};
use std::borrow::Cow;

/// The upload in a body, or why there is none, and where (feature `xmlparser`).
///
/// A body passes if it is UTF-8, keeps the [limits](crate::Limit), its tokens pass the
/// [drain](crate::drain), and it has an element. The table is made in a new buffer; a
/// [`Checker`] uses one again.
///
/// ```
/// use falzheod::check;
///
/// let upload = check(b"<core id='17'><bark>whole</bark></core>")?;
/// assert_eq!(upload.rows().len(), 8);
///
/// let says = |body: &[u8]| check(body).unwrap_err().to_string();
/// assert_eq!(says(b""), "the body is empty");
/// assert_eq!(says(b"<u>L\xC3"), "line 1, column 5: not UTF-8 at byte 4");
/// assert_eq!(says(b"<!-- c -->"), "line 1, column 11: the body ends without an element");
/// assert_eq!(
///     says(b"<core\nid=17/>"),
///     "line 2, column 4: invalid attribute: expected quote mark not '1'"
/// );
/// assert_eq!(says(b"<a>&zz;</a>"), "line 1, column 4: the reference &zz; is bad");
/// # Ok::<(), falzheod::CheckError>(())
/// ```
pub fn check(body: &[u8]) -> Result<Upload<'_>, CheckError> {
    let mut rows = Vec::new();
    let failed = tokens(body, &mut rows)?;
    let upload = Upload::drained(body, rows.into(), body.len() as u32);
    upload.map_err(|error| failed.unless_earlier(error))
}

/// Checks one body after another with one buffer for their rows, of which there are at
/// most 8,193 (feature `xmlparser`).
///
/// ```
/// use falzheod::Checker;
///
/// let mut checker = Checker::new();
/// for body in ["<core id='17'/>", "<core id='18'/>"] {
///     let upload = checker.check(body.as_bytes())?;
///     assert_eq!(upload.rows().len(), 3);
/// }
/// # Ok::<(), falzheod::CheckError>(())
/// ```
#[derive(Clone, Debug, Default)]
pub struct Checker {
    rows: Vec<Row>,
}

impl Checker {
    /// A checker, without a buffer yet.
    ///
    /// ```
    /// assert!(falzheod::Checker::new().check(b"<core/>").is_ok());
    /// ```
    pub fn new() -> Self {
        Checker::default()
    }

    /// As [`check`].
    ///
    /// ```
    /// let mut checker = falzheod::Checker::new();
    /// assert!(checker.check(b"<core/>").is_ok());
    /// assert!(checker.check(b"<core").is_err());
    /// ```
    pub fn check<'a>(&'a mut self, body: &'a [u8]) -> Result<Upload<'a>, CheckError> {
        let failed = tokens(body, &mut self.rows)?;
        let upload = Upload::drained(body, Cow::Borrowed(&self.rows), body.len() as u32);
        upload.map_err(|error| failed.unless_earlier(error))
    }

    /// As [`import`](crate::import).
    ///
    /// ```
    /// use falzheod::{Checker, ListSheet, Settings};
    ///
    /// let list = ListSheet::builder().build()?;
    /// let mut checker = Checker::new();
    /// let count = checker.import(b"<u><core/></u>", &list, &Settings::default(), |e| e.len())?;
    /// assert_eq!(count, 1);
    /// # Ok::<(), Box<dyn std::error::Error>>(())
    /// ```
    pub fn import<'s, R>(
        &mut self,
        body: &[u8],
        sheet: impl Into<Sheet<'s>>,
        settings: &Settings,
        hand_on: impl FnOnce(Entries<'_>) -> R,
    ) -> Result<R, ImportError> {
        let upload = self.check(body)?;
        let reading = upload.read(sheet, settings);
        Ok(hand_on(import::whole(&reading)?))
    }
}

/// What the tokenizer said of the body, if it could not go on.
struct Failed(Option<CheckError>);

impl Failed {
    /// The drain knows of a token error only that there is one: what the tokenizer said
    /// stands in its place. An earlier fault stays.
    fn unless_earlier(self, error: CheckError) -> CheckError {
        match (&error, self.0) {
            (CheckError::Token { .. }, Some(said)) => said,
            _ => error,
        }
    }
}

/// Fills `rows` with the body's.
fn tokens(body: &[u8], rows: &mut Vec<Row>) -> Result<Failed, CheckError> {
    let text = readable(body)?;
    let failed = table::fill(text, rows).map(|error| {
        let (byte, words) = said(text, error);
        let at = Place::of(body, byte);
        CheckError::Token { at, words }
    });
    Ok(Failed(failed))
}
