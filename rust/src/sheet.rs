//! Sheets: what an upload is read by. A sheet that is built or parsed here is never
//! broken, so no reading by it is refused with 2.

mod bytes;
mod list;
mod map;
mod member;
mod structure;

pub use list::{ListBuilder, ListSheet};
pub use map::{MapBuilder, MapSheet};
pub use member::Member;
pub use structure::{StructBuilder, StructSheet};

use std::fmt;

/// The most members of a structure.
///
/// ```
/// assert_eq!(falzheod::MOST_MEMBERS, 64);
/// ```
pub const MOST_MEMBERS: usize = 64;

/// The most bytes of a name in a sheet.
///
/// ```
/// assert_eq!(falzheod::MOST_NAME_BYTES, 255);
/// ```
pub const MOST_NAME_BYTES: usize = 255;

/// A sheet of any kind, as a reading takes it. A reference to a sheet becomes one; a list
/// sheet becomes a list of pieces, unless a list of strings is asked for.
///
/// ```
/// use falzheod::{ListSheet, Sheet};
///
/// let list = ListSheet::builder().item("ring").build()?;
/// assert_eq!(Sheet::from(&list), Sheet::List(&list));
/// assert_eq!(Sheet::StringList(&list).as_bytes(), list.as_bytes());
/// # Ok::<(), falzheod::SheetError>(())
/// ```
#[derive(Clone, Copy, Debug, PartialEq, Eq)]
pub enum Sheet<'s> {
    /// A structure.
    Struct(&'s StructSheet),
    /// A list, each item a piece.
    List(&'s ListSheet),
    /// A list, each item a text.
    StringList(&'s ListSheet),
    /// A map.
    Map(&'s MapSheet),
}

impl<'s> Sheet<'s> {
    /// The bytes of the sheet.
    ///
    /// ```
    /// let map = falzheod::MapSheet::builder().build()?;
    /// assert_eq!(falzheod::Sheet::Map(&map).as_bytes(), [0]);
    /// # Ok::<(), falzheod::SheetError>(())
    /// ```
    pub fn as_bytes(&self) -> &'s [u8] {
        match self {
            Sheet::Struct(sheet) => sheet.as_bytes(),
            Sheet::List(sheet) | Sheet::StringList(sheet) => sheet.as_bytes(),
            Sheet::Map(sheet) => sheet.as_bytes(),
        }
    }

    /// The members, of a structure; a list and a map have none.
    pub(crate) fn members(&self) -> &'s [Member] {
        match self {
            Sheet::Struct(sheet) => sheet.members(),
            _ => &[],
        }
    }
}

impl<'s> From<&'s StructSheet> for Sheet<'s> {
    fn from(sheet: &'s StructSheet) -> Self {
        Sheet::Struct(sheet)
    }
}

impl<'s> From<&'s ListSheet> for Sheet<'s> {
    fn from(sheet: &'s ListSheet) -> Self {
        Sheet::List(sheet)
    }
}

impl<'s> From<&'s MapSheet> for Sheet<'s> {
    fn from(sheet: &'s MapSheet) -> Self {
        Sheet::Map(sheet)
    }
}

/// Why there is no such sheet.
///
/// ```
/// use falzheod::{Member, SheetError, StructSheet};
///
/// let nameless = StructSheet::builder("core").member(Member::new("")).build();
/// assert_eq!(nameless.unwrap_err().to_string(), "the member name of member 0 is empty");
/// let cut = StructSheet::parse(&[0, 4, b'c']);
/// assert_eq!(cut, Err(SheetError::Broken { byte: 3 }));
/// ```
#[derive(Clone, Debug, PartialEq, Eq, Hash)]
#[non_exhaustive]
pub enum SheetError {
    /// A name is empty.
    EmptyName {
        /// Which name.
        field: &'static str,
        /// Of which member, if of one.
        member: Option<usize>,
    },
    /// A name has more than [`MOST_NAME_BYTES`] bytes.
    LongName {
        /// Which name.
        field: &'static str,
        /// Of which member, if of one.
        member: Option<usize>,
        /// How many bytes it has.
        length: usize,
    },
    /// A structure has more than [`MOST_MEMBERS`] members.
    ManyMembers {
        /// How many it has.
        count: usize,
    },
    /// The bytes are no sheet of the kind.
    Broken {
        /// The first byte that cannot be read on.
        byte: usize,
    },
}

impl fmt::Display for SheetError {
    fn fmt(&self, f: &mut fmt::Formatter<'_>) -> fmt::Result {
        match self {
            SheetError::EmptyName { field, member } => {
                write!(f, "the {field}{} is empty", Of(*member))
            }
            SheetError::LongName {
                field,
                member,
                length,
            } => write!(
                f,
                "the {field}{} has {length} bytes, and {MOST_NAME_BYTES} is the most",
                Of(*member)
            ),
            SheetError::ManyMembers { count } => {
                write!(f, "{count} members, and {MOST_MEMBERS} is the most")
            }
            SheetError::Broken { byte } => write!(f, "no sheet: its byte {byte} is wrong"),
        }
    }
}

impl std::error::Error for SheetError {}

/// Which member a name is of, in words.
struct Of(Option<usize>);

impl fmt::Display for Of {
    fn fmt(&self, f: &mut fmt::Formatter<'_>) -> fmt::Result {
        match self.0 {
            Some(member) => write!(f, " of member {member}"),
            None => Ok(()),
        }
    }
}
