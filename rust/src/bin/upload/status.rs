//! The status that the program ends with; the worst of several counts.

/// How it came out, the better first.
#[derive(Clone, Copy, Debug, PartialEq, Eq, PartialOrd, Ord)]
pub enum Status {
    /// Every file passes, or is read, whole.
    Whole,
    /// A file is refused.
    Refused,
    /// Wrong use, a file that cannot be read, or output that cannot be written.
    Trouble,
}

impl Status {
    pub fn number(self) -> u8 {
        match self {
            Status::Whole => 0,
            Status::Refused => 1,
            Status::Trouble => 2,
        }
    }
}
