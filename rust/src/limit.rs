//! The three limits of an upload, and which one a table passes.

use crate::row::open_after;
use crate::Row;
use std::fmt;

/// A limit of what is taken.
///
/// ```
/// use falzheod::Limit;
///
/// assert_eq!(Limit::Bytes.most(), 65_536);
/// assert_eq!(Limit::Rows.most(), 8_192);
/// assert_eq!(Limit::Open.to_string(), "more than 256 open elements");
/// ```
#[derive(Clone, Copy, Debug, PartialEq, Eq, Hash)]
pub enum Limit {
    /// The bytes of the body.
    Bytes,
    /// The rows of its table: one for each token, attributes among them.
    Rows,
    /// The elements that are open at once.
    Open,
}

impl Limit {
    /// How many are taken.
    ///
    /// ```
    /// assert_eq!(falzheod::Limit::Open.most(), 256);
    /// ```
    pub const fn most(self) -> usize {
        match self {
            Limit::Bytes => 65_536,
            Limit::Rows => 8_192,
            Limit::Open => 256,
        }
    }

    /// The limit that a table passes, if one, and the byte where it does.
    pub(crate) fn passed(body: &[u8], rows: &[Row]) -> Option<(Limit, usize)> {
        if body.len() > Limit::Bytes.most() {
            return Some((Limit::Bytes, Limit::Bytes.most()));
        }
        let mut open = 0;
        for (index, row) in rows.iter().enumerate() {
            if index == Limit::Rows.most() {
                let before = rows[index - 1].position as usize;
                return Some((Limit::Rows, row.start(body).unwrap_or(before)));
            }
            open = open_after(open, row);
            if open > Limit::Open.most() {
                return Some((Limit::Open, row.tag_start(body)));
            }
        }
        None
    }
}

impl fmt::Display for Limit {
    fn fmt(&self, f: &mut fmt::Formatter<'_>) -> fmt::Result {
        let what = match self {
            Limit::Bytes => "bytes",
            Limit::Rows => "tokens",
            Limit::Open => "open elements",
        };
        match (self.most() / 1_000, self.most() % 1_000) {
            (0, few) => write!(f, "more than {few} {what}"),
            (thousands, rest) => write!(f, "more than {thousands},{rest:03} {what}"),
        }
    }
}
