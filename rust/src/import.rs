//! All of an upload or nothing of it (feature `xmlparser`).

use crate::{CheckError, Checker, Entries, Entry, Reading, Refusal, Settings, Sheet};
use std::fmt;

/// Checks a body, reads it by a sheet, and only then hands its entries on (feature
/// `xmlparser`).
///
/// `hand_on` runs if the whole upload passed the drain, the reading finished and no scalar
/// of it failed, and not at all otherwise: of an upload that is cut short nothing is handed
/// on. The front page of the crate has an example.
///
/// Pieces among the entries are elements of the upload; each passes the drain again, and
/// is read again by [`Piece::upload`](crate::Piece::upload). That reading has a refusal of
/// its own, if another sheet or the maximum depth does not allow it: whoever wants all or
/// nothing reads every piece before anything is kept. Whoever wants the other members where
/// a scalar has an element in it takes [`check`](crate::check) and
/// [`Upload::read_struct`](crate::Upload::read_struct), which gives that scalar as
/// [`Entry::Failed`](crate::Entry::Failed).
///
/// ```
/// use falzheod::{import, ImportError, ListSheet, Refusal, Settings};
///
/// let list = ListSheet::builder().build()?;
/// let settings = Settings::default();
/// let cores = import(b"<u><core/><core/></u>", &list, &settings, |entries| entries.len())?;
/// assert_eq!(cores, 2);
///
/// let flat = Settings { max_depth: 0, ..settings };
/// let refused = import(b"<u><core/></u>", &list, &flat, |_| unreachable!());
/// assert_eq!(refused, Err::<(), _>(ImportError::Read(Refusal::Depth)));
/// # Ok::<(), Box<dyn std::error::Error>>(())
/// ```
pub fn import<'s, R>(
    body: &[u8],
    sheet: impl Into<Sheet<'s>>,
    settings: &Settings,
    hand_on: impl FnOnce(Entries<'_>) -> R,
) -> Result<R, ImportError> {
    Checker::new().import(body, sheet, settings, hand_on)
}

/// Why nothing of a body was handed on (feature `xmlparser`).
///
/// ```
/// use falzheod::{import, ListSheet, Settings};
///
/// let list = ListSheet::builder().build()?;
/// let error = import(b"<u><core>", &list, &Settings::default(), |_| ()).unwrap_err();
/// assert_eq!(error.to_string(), "line 1, column 10: the body ends where <core> is open, \
///     since line 1, column 4");
/// # Ok::<(), falzheod::SheetError>(())
/// ```
#[derive(Clone, Debug, PartialEq, Eq, Hash)]
pub enum ImportError {
    /// The body is no upload.
    Check(CheckError),
    /// The reading of the upload was refused.
    Read(Refusal),
    /// A scalar of the upload could not be read.
    Failed {
        /// The index of its member in the sheet.
        member: usize,
        /// Why.
        refusal: Refusal,
    },
}

/// The entries of a reading that finished, where no scalar failed.
pub(crate) fn whole<'r>(reading: &'r Reading<'_>) -> Result<Entries<'r>, ImportError> {
    let entries = reading.finished()?;
    let failed = entries.clone().find_map(|entry| match entry {
        Entry::Failed { member, refusal } => Some(ImportError::Failed { member, refusal }),
        _ => None,
    });
    failed.map_or(Ok(entries), Err)
}

impl From<CheckError> for ImportError {
    fn from(error: CheckError) -> Self {
        ImportError::Check(error)
    }
}

impl From<Refusal> for ImportError {
    fn from(refusal: Refusal) -> Self {
        ImportError::Read(refusal)
    }
}

impl fmt::Display for ImportError {
    fn fmt(&self, f: &mut fmt::Formatter<'_>) -> fmt::Result {
        match self {
            ImportError::Check(error) => error.fmt(f),
            ImportError::Read(refusal) => write!(f, "well-formed, but not read: {refusal}"),
            ImportError::Failed { member, refusal } => {
                write!(f, "well-formed, but member {member} is not read: {refusal}")
            }
        }
    }
}

impl std::error::Error for ImportError {}
